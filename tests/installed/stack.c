/*
 * Measures how much stack each call takes: in a thread, the stack below the call is painted, the call is made, and the deepest
 * byte that changed is looked for. The files are full ones, whole, with a fault for each check, and with positions of which many
 * are sifted anew; files are made of their lists. Fails where a call takes more than CITRONREEF_STACK_KIB.
 */
#include "citronreef.h"
#include <pthread.h>
#include <stdio.h>
#include <stdlib.h>

enum { MARKS = CITRONREEF_MAX_MARKS, CORRECTIONS = CITRONREEF_MAX_CORRECTIONS, POSITIONS = CITRONREEF_MAX_POSITIONS };
enum { CORRECTIONS_AT = 24 + 12 * MARKS, POSITIONS_AT = CORRECTIONS_AT + 12 * CORRECTIONS };
enum { FILE_SIZE = POSITIONS_AT + 12 * POSITIONS, STACK = 256 << 10, PAINT = 0xA5 };
_Static_assert(FILE_SIZE == CITRONREEF_FILE_SIZE, "the length of a full file");

static uint8_t *stack, file[FILE_SIZE], out[CITRONREEF_SHEET_SIZE];
static int64_t amounts[POSITIONS];
static size_t length;

/* The calls, each with what it is lent. */
static void value(void) { citronreef_value('X', 'X', 950000); }
static void tick_value(void) { citronreef_tick_value('X', 'X', 950000); }
static void bracket(void) { citronreef_bracket('X', 'X', 950000); }
static void settle(void) { citronreef_settle(file, length, amounts, POSITIONS); }
static void mark(void) { citronreef_mark(file, length, MARKS - 1); }
static void sheet(void) { citronreef_sheet(file, length, amounts, POSITIONS, out, sizeof out); }

static void find(void)
{
    for (uint32_t check = 0; check <= 16; check++)
        citronreef_find(file, length, check);
}

/* Makes a file of this one's lists, with so many bytes more of marks, into this room; answers the check that refuses it, or 0. */
static uint64_t made(size_t more, size_t room)
{
    const uint8_t *marks = file + 24, *corrections = file + CORRECTIONS_AT, *positions = file + POSITIONS_AT;
    return citronreef_make(marks, 12 * MARKS + more, corrections, 12 * CORRECTIONS, positions, 12 * POSITIONS, out, room).refused;
}

static void make(void)
{
    made(0, FILE_SIZE);
    made(0, FILE_SIZE - 1);
    made(1, FILE_SIZE);
    made(12, FILE_SIZE);
}

static const struct { const char *name; void (*call)(void); } calls[] = {
    {"value", value}, {"tick_value", tick_value}, {"bracket", bracket}, {"settle", settle},
    {"mark", mark}, {"sheet", sheet}, {"find", find}, {"make", make},
};
enum { CALLS = sizeof calls / sizeof *calls };
static size_t deepest[CALLS];

/* The bytes of stack that a call takes. The 256 nearest to this frame are not painted, and count as taken. */
static size_t __attribute__((noinline)) taken(void (*call)(void))
{
    uint8_t *top = __builtin_frame_address(0);
    volatile uint8_t *byte;
    for (byte = stack; byte < top - 256; byte++)
        *byte = PAINT;
    call();
    for (byte = stack; byte < top && *byte == PAINT; byte++)
        ;
    return top - byte;
}

static void *measure(void *nothing)
{
    for (int k = 0; k < CALLS; k++) {
        size_t bytes = taken(calls[k].call);
        if (bytes > deepest[k])
            deepest[k] = bytes;
    }
    return nothing;
}

static void in_a_thread(void)
{
    pthread_t thread;
    pthread_attr_t with_stack;
    pthread_attr_init(&with_stack);
    if (pthread_attr_setstack(&with_stack, stack, STACK) || pthread_create(&thread, &with_stack, measure, NULL))
        exit(2);
    pthread_join(thread, NULL);
}

static void put(size_t at, uint32_t number)
{
    for (int k = 0; k < 4; k++)
        file[at + k] = number >> 8 * k;
}

/* A record of three numbers; answers where the next one starts. */
static size_t record(size_t at, uint32_t first, uint32_t second, uint32_t third)
{
    put(at, first);
    put(at + 4, second);
    put(at + 8, third);
    return at + 12;
}

static uint32_t contract(uint32_t k)
{
    static const char codes[] = "IRBBYTXTXX";
    const char *code = codes + 2 * (k % 5);
    return code[0] | code[1] << 8 | (3 + k / 5 % 4 * 3) << 16 | k / 20 << 24;
}

/* A file with as many records as the limits allow. */
static void full_file(void)
{
    const uint32_t numbers[6] = {MARKS, 24, CORRECTIONS, CORRECTIONS_AT, POSITIONS, POSITIONS_AT};
    size_t at = 24;
    for (int k = 0; k < 6; k++)
        put(4 * k, numbers[k]);
    for (uint32_t k = 0; k < MARKS; k++)
        at = record(at, contract(k), 950000 + 100 * k, 960000 - 100 * k);
    for (uint32_t k = 0; k < CORRECTIONS; k++)
        at = record(at, k * 0x01000193, k % MARKS, 955000 - 100 * (k % MARKS));
    for (uint32_t k = 0; k < POSITIONS; k++)
        at = record(at, k, k % MARKS, k % 2 ? 1 + k : -1 - k);
    length = FILE_SIZE;
}

/*
 * Gives the positions from one on other accounts. Where the library sifts them, both places of each are in the first 64th, and few
 * stay. Where it is the first, all positions are sifted anew; where it is the middle one, those that are left.
 */
static void crowd(uint32_t from)
{
    const uint32_t lower = 2654435761, upper = 1973900851, inverse = 244002641;
    uint32_t number = 1, account;
    for (uint32_t k = from; k < POSITIONS; k++) {
        uint32_t mark = k % MARKS;
        do
            account = (number++ - mark * upper) * inverse;
        while (account * upper + mark * lower >= 1 << 26);
        put(POSITIONS_AT + 12 * k, account);
    }
}

/* The check that each fault breaks, and the number that is put at a place of the full file to break it. */
static const struct { uint64_t check; size_t at; uint32_t number; } faults[] = {
    {0, 4, 24}, {2, 0, MARKS + 1}, {2, 8, UINT32_MAX}, {2, 16, POSITIONS + 1}, {3, 4, 25}, {3, 20, 0},
    {4, CORRECTIONS_AT - 12, 0}, {5, CORRECTIONS_AT - 12, 0xFF045249}, {6, CORRECTIONS_AT - 8, UINT32_MAX},
    {7, CORRECTIONS_AT - 4, 950001}, {8, CORRECTIONS_AT - 12, 0x00035249}, {9, POSITIONS_AT - 8, MARKS},
    {10, POSITIONS_AT - 4, 950001}, {11, POSITIONS_AT - 12, 0}, {12, FILE_SIZE - 8, MARKS}, {13, FILE_SIZE - 4, 0},
    {16, FILE_SIZE - 12, MARKS - 1},
};

/* Whether the file is refused with this check, or with none where it is 0, and so are its lists, which have no header to refuse. */
static int is_refused(uint64_t check)
{
    uint64_t of_lists = check < 4 ? 0 : check;
    return citronreef_settle(file, length, amounts, POSITIONS).refused == check
        && made(0, FILE_SIZE) == of_lists && made(0, FILE_SIZE - 1) == (of_lists ? of_lists : 17)
        && made(1, FILE_SIZE) == 3 && made(12, FILE_SIZE) == 2;
}

/* Measures the calls on the file, which this check must refuse, or none where it is 0. */
static void measure_refused(uint64_t check)
{
    if (!is_refused(check)) {
        printf("a file is not refused with %d as it should be\n", (int)check);
        exit(2);
    }
    in_a_thread();
}

int main(void)
{
    size_t most = 0;
    if (posix_memalign((void **)&stack, 4096, STACK))
        return 2;
    for (size_t k = 0; k < sizeof faults / sizeof *faults; k++) {
        full_file();
        put(faults[k].at, faults[k].number);
        measure_refused(faults[k].check);
    }
    for (uint32_t from = 0; from < POSITIONS; from += POSITIONS / 2) {
        full_file();
        crowd(from);
        measure_refused(0);
    }
    for (int k = 0; k < CALLS; k++) {
        printf("%s %zu, ", calls[k].name, deepest[k]);
        most = deepest[k] > most ? deepest[k] : most;
    }
    printf("at most %zu of %d bytes\n", most, 1024 * CITRONREEF_STACK_KIB);
    return most > 1024 * CITRONREEF_STACK_KIB;
}
