/*
 * Settles the case of document 01 through include/citronreef.h, and prints its numbers and its sheet. The sheet is of the file that
 * its lists make.
 */
#include "citronreef.h"
#include <inttypes.h>
#include <stdio.h>

static const uint8_t file[84] = {
    1, 0, 0, 0, 24, 0, 0, 0, 2, 0, 0, 0, 36, 0, 0, 0, 2, 0, 0, 0, 60, 0, 0, 0, /* header: 1 24 2 36 2 60 */
    'I', 'R', 3, 18, 0xF0, 0x7E, 0x0E, 0, 0xB8, 0x7F, 0x0E, 0,                 /* IR 3 18, from 950,000 to 950,200 */
    7, 0, 0, 0, 0, 0, 0, 0, 0x54, 0x7F, 0x0E, 0,                               /* 7, mark 0, 950,100 */
    7, 0, 0, 0, 0, 0, 0, 0, 0x54, 0x7F, 0x0E, 0,                               /* sent again */
    11, 0, 0, 0, 0, 0, 0, 0, 10, 0, 0, 0,                                      /* account 11, mark 0, 10 lots */
    12, 0, 0, 0, 0, 0, 0, 0, 0xFC, 0xFF, 0xFF, 0xFF,                           /* account 12, mark 0, -4 lots */
};

static void print_outcome(citronreef_outcome o)
{
    printf("%" PRIu64 " %" PRIu64 " %" PRIu64 " %" PRId64 " %" PRId64 " %" PRIu64 "\n",
           o.refused, o.index, o.positions, o.aud, o.nzd, o.resent);
}

static void print_quote(citronreef_quote q)
{
    printf("%" PRIu64 " %" PRIu64 "\n", q.refused, q.number);
}

static void print_mark(citronreef_mark_prices m)
{
    printf("%" PRIu64 " %" PRIu64 " %" PRIu64 " %" PRIu64 " %" PRIu64 " %" PRIu64 " %" PRId64 "\n",
           m.refused, m.index, m.previous, m.final_price, m.corrected, m.number, m.change);
}

static void print_found(citronreef_found f)
{
    printf("%" PRIu64 " %" PRIu64 "\n", f.found, f.index);
}

_Static_assert(CITRONREEF_SHEET_SIZE == 47 * CITRONREEF_MAX_POSITIONS + 90, "room for the longest sheet");
_Static_assert(CITRONREEF_PRICE_LIMIT == 100 * CITRONREEF_UNITS_PER_POINT, "no price is above 100.0000");
_Static_assert(CITRONREEF_FILE_SIZE == 24 + 12 * (CITRONREEF_MAX_MARKS + CITRONREEF_MAX_CORRECTIONS + CITRONREEF_MAX_POSITIONS),
               "room for the longest file");

static uint8_t out[CITRONREEF_SHEET_SIZE], again[CITRONREEF_FILE_SIZE];

int main(void)
{
    int64_t amounts[3] = {-1, -1, -1};
    printf("%s %d %d %d\n", CITRONREEF_VERSION, CITRONREEF_VERSION_MAJOR, CITRONREEF_VERSION_MINOR, CITRONREEF_VERSION_PATCH);
    print_outcome(citronreef_settle(file, sizeof file, amounts, 1));
    print_outcome(citronreef_settle(file, sizeof file, amounts, 3));
    printf("%" PRId64 " %" PRId64 " %" PRId64 "\n", amounts[0], amounts[1], amounts[2]);
    print_quote(citronreef_value('I', 'R', 950000));
    print_quote(citronreef_tick_value('I', 'R', 1000000));
    print_quote(citronreef_bracket('Y', 'T', 940000));
    print_mark(citronreef_mark(file, sizeof file, 0));
    print_mark(citronreef_mark(file, sizeof file, 1));
    print_found(citronreef_find(file, sizeof file, 3));
    print_found(citronreef_find(file, sizeof file - 1, 3));
    printf("%zu\n", citronreef_sheet(file, sizeof file, amounts, 3, out, sizeof out - 1));
    citronreef_made made = citronreef_make(file + 24, 12, file + 36, 24, file + 60, 24, again, sizeof again);
    fwrite(out, 1, citronreef_sheet(again, made.length, amounts, 3, out, sizeof out), stdout);
    return made.refused != 0 || made.index != 0;
}
