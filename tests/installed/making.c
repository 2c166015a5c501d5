/* Makes a day file of a mark, a correction sent twice and two positions, and writes it to standard output. */
#include <citronreef.h>
#include <inttypes.h>
#include <stdio.h>

static uint8_t marks[12], corrections[24], positions[24], file[CITRONREEF_FILE_SIZE];

/* Puts the three numbers of a record, each with its lowest byte first. */
static void put(uint8_t *record, uint32_t first, uint32_t second, uint32_t third)
{
    const uint32_t numbers[3] = {first, second, third};
    for (int k = 0; k < 12; k++)
        record[k] = numbers[k / 4] >> 8 * (k % 4);
}

int main(void)
{
    put(marks, 'I' | 'R' << 8 | 3 << 16 | 18 << 24, 950000, 950200); /* code, month and year are one byte each */
    put(corrections, 7, 0, 950100);
    put(corrections + 12, 7, 0, 950100);
    put(positions, 11, 0, 10);
    put(positions + 12, 12, 0, -4);
    citronreef_made day = citronreef_make(marks, sizeof marks, corrections, sizeof corrections, positions,
                                          sizeof positions, file, sizeof file);
    if (day.refused) {
        fprintf(stderr, "refused %" PRIu64 " at %" PRIu64 "\n", day.refused, day.index);
        return 1;
    }
    return fwrite(file, 1, day.length, stdout) != day.length;
}
