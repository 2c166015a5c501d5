/*
 * Citronreef: value, tick value and bracket of one ASX 24 rate futures contract, the settlement of a day file,
 * what is said of each of its marks, where a check's condition holds in it, its sheet, and the making of a day file.
 *
 * Link with libcitronreef.so or libcitronreef.a; `pkg-config --cflags --libs citronreef` says how. Of the documents, which are
 * installed in share/doc/citronreef and stand in docs of the repository, LIBRARY.md has examples and REFUSALS.md the checks by
 * their numbers. No function keeps what it is lent, allocates or reads anything but its arguments. Every argument is answered: a
 * call that cannot be met is refused with a check's number, but for two: citronreef_sheet answers 0 where there is too little room,
 * and citronreef_find answers found 0 for a number of no check.
 *
 * Threads: the library has no writable data. Any function may be called from many threads at once, also on the same file, as
 * long as no two calls write to the same memory and nobody writes to a file while a call reads it.
 *
 * Stack: no call needs more than CITRONREEF_STACK_KIB. In the repository, tests/installed/stack.c measures it.
 *
 * Null: a pointer with length 0 may be null, as the data of an empty std::vector is. This is tested and lies outside the proof,
 * which is about slices, and a slice is never null. A null pointer with another length is not allowed.
 *
 * Alignment: amounts are aligned as int64_t is. Files, lists of records, and the room for a file or a sheet may start at any byte.
 */
#ifndef CITRONREEF_H
#define CITRONREEF_H

#include <stddef.h>
#include <stdint.h>

#ifdef __cplusplus
extern "C" {
#endif

/* The version of this header and of the library that it comes with. */
#define CITRONREEF_VERSION_MAJOR 0
#define CITRONREEF_VERSION_MINOR 1
#define CITRONREEF_VERSION_PATCH 0
#define CITRONREEF_VERSION "0.1.0"

/* A price is a whole number of units of 0.0001, so that 95.01 is 950100, and none is above 100.0000. */
#define CITRONREEF_UNITS_PER_POINT 10000
#define CITRONREEF_PRICE_LIMIT 1000000

/* A bracket of 1 is this many of its units. */
#define CITRONREEF_BRACKET_UNITS 100000000

/* The most records that a day file has, and the most lots of a position, long or short. */
#define CITRONREEF_MAX_MARKS 256
#define CITRONREEF_MAX_CORRECTIONS 512
#define CITRONREEF_MAX_POSITIONS 4096
#define CITRONREEF_MAX_LOTS 1000000

/* No day file is longer than this, in bytes: 24 for the header, and 12 for each of 256 + 512 + 4,096 records. */
#define CITRONREEF_FILE_SIZE 58392

/* No sheet is longer than this, in bytes: 47 for each of 4,096 positions, and 90 for the totals and the resent count. */
#define CITRONREEF_SHEET_SIZE 192602

/* The stack that is enough for any call, in KiB. The deepest call measured, a sheet, took less than fifteen sixteenths of it. */
#define CITRONREEF_STACK_KIB 64

/* The answer of a call on one contract. Where refused is not 0 it is the number of the check, and number is 0. */
typedef struct {
    uint64_t refused;
    uint64_t number;
} citronreef_quote;

/* The answer to a day file. Where refused is not 0 it is the number of the check, index the record, and the rest is 0. */
typedef struct {
    uint64_t refused;
    uint64_t index;
    uint64_t positions; /* N */
    int64_t aud;        /* total in Australian cents */
    int64_t nzd;        /* total in New Zealand cents */
    uint64_t resent;    /* corrections with a number that an earlier one bears */
} citronreef_outcome;

/*
 * What is said of one mark of a day file. Where refused is not 0 it is the number of the check, index the record, and the rest is
 * 0. Prices are in units of 0.0001.
 */
typedef struct {
    uint64_t refused;
    uint64_t index;
    uint64_t previous;
    uint64_t final_price;
    uint64_t corrected; /* 1 where a correction decides the final price, 0 where today's price stands */
    uint64_t number;    /* that correction's number; 0 where there is none, or where it is 0 */
    int64_t change;     /* the change in value of one contract from the previous to the final price, in cents */
} citronreef_mark_prices;

/* Where a check's condition holds in what citronreef_find looks at, which is not always the whole of a file. */
typedef struct {
    uint64_t found; /* 1 where it holds there, 0 where it does not, or where the check is not looked for */
    uint64_t index; /* the first record where it holds; 0 where found is 0, or where the check looks at no single record */
} citronreef_found;

/* The answer of the maker. Where refused is not 0 it is the number of the check, index the record, and length is 0. */
typedef struct {
    uint64_t refused;
    uint64_t index;
    uint64_t length; /* of the file, in bytes */
} citronreef_made;

/* The value of one contract in cents. The code is two letters; the price is in units of 0.0001. */
citronreef_quote citronreef_value(uint8_t first, uint8_t second, uint32_t price);

/* The value at the price one tick higher, minus the value. */
citronreef_quote citronreef_tick_value(uint8_t first, uint8_t second, uint32_t price);

/* The bracket of a bond, in units of 10^-8. A code of no bond is refused with 4, also where the product table has it. */
citronreef_quote citronreef_bracket(uint8_t first, uint8_t second, uint32_t price);

/*
 * Settles a day file of file_length bytes. The amounts of an accepted file stand in the first N places, in cents; places from
 * N on, and all places after a refusal, are left as they were. File and amounts do not overlap.
 */
citronreef_outcome citronreef_settle(const uint8_t *file, size_t file_length, int64_t *amounts, size_t places);

/*
 * The prices of the mark with this index, from 0, of a day file that passes checks 1 to 13 and 16. A file that does not is refused
 * as citronreef_settle refuses it; a mark that the file does not have is refused with 12, and index is the one asked for. The
 * amount of a position is its lots times the change of its mark.
 */
citronreef_mark_prices citronreef_mark(const uint8_t *file, size_t file_length, size_t mark);

/*
 * Whether the condition of the check with this number, 1 to 13 or 16, holds in a day file, and the first record where it does. Each
 * condition is looked for by itself, so that one may be found that vanishes once an earlier one is mended. Not all of every file is
 * looked at: of one that is shorter than 24 bytes only check 1, and of one with a count above its limit only 1 to 3. Otherwise the
 * sections follow one another from byte 24 by the header's counts, whatever its offsets say, as far as the file has whole records.
 * A number of no check is answered with found 0.
 */
citronreef_found citronreef_find(const uint8_t *file, size_t file_length, uint32_t check);

/*
 * Settles a day file as citronreef_settle does, writes its sheet at the start of out, and answers the sheet's length; the
 * other bytes of out stay. With room for less than CITRONREEF_SHEET_SIZE bytes nothing is written, neither sheet nor
 * amounts, and the answer is 0. No two of file, amounts and out overlap.
 */
size_t citronreef_sheet(const uint8_t *file, size_t file_length, int64_t *amounts, size_t places, uint8_t *out, size_t room);

/*
 * Makes a day file of three lists, each lent as the bytes of its records, 12 for each: writes the header and the three sections at
 * the start of out, and answers the file's length. The other bytes of out stay; a refusal writes nothing. The checks are, in this
 * order: 2, where a list has more whole records than a file may have; 3, where a list is not whole records; 4 to 13 and 16, as for
 * a file that has these lists; and 17, where room is less than the file's length. The index of 2, 3 and 17 is 0. A room of
 * CITRONREEF_FILE_SIZE bytes is enough for every file. Out overlaps none of the lists; these may overlap each other.
 */
citronreef_made citronreef_make(const uint8_t *marks, size_t marks_length, const uint8_t *corrections, size_t corrections_length,
                                const uint8_t *positions, size_t positions_length, uint8_t *out, size_t room);

#ifdef __cplusplus
}
#endif

#endif
