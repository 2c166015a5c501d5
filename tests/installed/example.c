/* Settles the day file of standard input, and prints its amounts and totals. */
#include <citronreef.h>
#include <inttypes.h>
#include <stdio.h>

static uint8_t file[65536];
static int64_t amounts[CITRONREEF_MAX_POSITIONS];

int main(void)
{
    size_t length = fread(file, 1, sizeof file, stdin);
    citronreef_outcome day = citronreef_settle(file, length, amounts, CITRONREEF_MAX_POSITIONS);
    if (day.refused) {
        printf("refused %" PRIu64 " at %" PRIu64 "\n", day.refused, day.index);
        return 1;
    }
    for (uint64_t k = 0; k < day.positions; k++)
        printf("%" PRId64 " cents\n", amounts[k]);
    printf("AUD %" PRId64 ", NZD %" PRId64 ", resent %" PRIu64 "\n", day.aud, day.nzd, day.resent);
    return 0;
}
