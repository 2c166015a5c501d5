/*
 * What the header says of pointers: null with length 0, files, lists and sheets that start at any byte, and lists that overlap. The
 * proof is about slices and says nothing of the first.
 */
#include "citronreef.h"
#include <assert.h>
#include <string.h>

static const uint8_t nothing[24] = {0, 0, 0, 0, 24, 0, 0, 0, 0, 0, 0, 0, 24, 0, 0, 0, 0, 0, 0, 0, 24, 0, 0, 0};
static const uint8_t one_position[48] = {
    1, 0, 0, 0, 24, 0, 0, 0, 0, 0, 0, 0, 36, 0, 0, 0, 1, 0, 0, 0, 36, 0, 0, 0, /* header: 1 24 0 36 1 36 */
    'I', 'R', 3, 18, 0xF0, 0x7E, 0x0E, 0, 0x54, 0x7F, 0x0E, 0,                 /* IR 3 18, from 950,000 to 950,100 */
    11, 0, 0, 0, 0, 0, 0, 0, 0xFC, 0xFF, 0xFF, 0xFF,                           /* account 11, mark 0, -4 lots */
};
static const uint8_t *const its_mark = one_position + 24, *const its_position = one_position + 36;
static const char one_line[] = "11 IR 3 18 -9624 AUD\ntotal AUD -9624\ntotal NZD 0\nresent 0\n";
static uint8_t out[CITRONREEF_SHEET_SIZE + 8];

static void null_with_length_0(void)
{
    assert(citronreef_settle(NULL, 0, NULL, 0).refused == 1);
    assert(citronreef_settle(nothing, sizeof nothing, NULL, 0).refused == 0);
    assert(citronreef_settle(one_position, sizeof one_position, NULL, 0).refused == 14);
    assert(citronreef_mark(NULL, 0, 0).refused == 1);
    assert(citronreef_find(NULL, 0, 1).found == 1);
    assert(citronreef_find(NULL, 0, 13).found == 0);
    assert(citronreef_sheet(NULL, 0, NULL, 0, NULL, 0) == 0);
    assert(citronreef_sheet(one_position, sizeof one_position, NULL, 0, NULL, 0) == 0);
    assert(citronreef_sheet(NULL, 0, NULL, 0, out, sizeof out) == strlen("refused 1 at 0\n"));
    assert(citronreef_sheet(one_position, sizeof one_position, NULL, 0, out, sizeof out) == strlen("refused 14 at 0\n"));
    assert(memcmp(out, "refused 14 at 0\n", strlen("refused 14 at 0\n")) == 0);
    assert(citronreef_make(NULL, 0, NULL, 0, NULL, 0, NULL, 0).refused == 17);
    assert(citronreef_make(its_mark, 12, NULL, 0, its_position, 12, NULL, 0).refused == 17);
    assert(citronreef_make(NULL, 0, NULL, 0, NULL, 0, out, sizeof out).length == sizeof nothing);
    assert(memcmp(out, nothing, sizeof nothing) == 0);
}

static void at_any_byte(void)
{
    _Alignas(16) uint8_t room[sizeof one_position + 8];
    for (size_t at = 0; at < 8; at++) {
        int64_t amount = 0;
        memcpy(room + at, one_position, sizeof one_position);
        assert(citronreef_settle(room + at, sizeof one_position, &amount, 1).aud == -9624 && amount == -9624);
        assert(citronreef_mark(room + at, sizeof one_position, 0).change == 2406);
        assert(citronreef_find(room + at, sizeof one_position - 1, 3).found == 1);
        size_t length = citronreef_sheet(room + at, sizeof one_position, &amount, 1, out + at, CITRONREEF_SHEET_SIZE);
        assert(length == strlen(one_line) && memcmp(out + at, one_line, length) == 0);
    }
}

/* Lists and room at any byte; the bytes before the file and after it stay, and after a refusal all bytes. */
static void made_at_any_byte(void)
{
    enum { LENGTH = sizeof one_position };
    _Alignas(16) uint8_t lists[2 * 12 + 8], room[LENGTH + 16], expected[sizeof room];
    for (size_t at = 0; at < 8; at++)
        for (size_t from = 0; from < 8; from++) {
            memcpy(lists + from, its_mark, 2 * 12);
            memset(room, 0xA5, sizeof room);
            memset(expected, 0xA5, sizeof expected);
            assert(citronreef_make(lists + from, 12, NULL, 0, lists + from + 12, 12, room + at, LENGTH - 1).refused == 17);
            assert(memcmp(room, expected, sizeof room) == 0);
            memcpy(expected + at, one_position, LENGTH);
            assert(citronreef_make(lists + from, 12, NULL, 0, lists + from + 12, 12, room + at, LENGTH + 8).length == LENGTH);
            assert(memcmp(room, expected, sizeof room) == 0);
        }
}

/* One record that is a mark, IR 3 18 from 0 to 950,100; a correction of mark 0; and a position in it, of 950,100 lots. */
static void made_of_one_list(void)
{
    static const uint8_t record[12] = {'I', 'R', 3, 18, 0, 0, 0, 0, 0x54, 0x7F, 0x0E, 0};
    int64_t amount;
    assert(citronreef_make(record, 12, record, 12, record, 12, out, sizeof out).length == 60);
    for (size_t at = 24; at < 60; at += 12)
        assert(memcmp(out + at, record, 12) == 0);
    assert(citronreef_settle(out, 60, &amount, 1).positions == 1);
}

int main(void)
{
    null_with_length_0();
    at_any_byte();
    made_at_any_byte();
    made_of_one_list();
    return 0;
}
