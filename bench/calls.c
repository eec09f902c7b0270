/* calls SHEET CENTS THOUSANDS NEEDS NUMBERS QUARTER: how much stack each call of include/tsav.h takes on its largest input, a line for each:
   its name, a space, bytes. A call runs on a thread of its own, which fills its stack with one byte first. What the call
   takes is counted from the frame that calls it down to the deepest byte that is another then; with two fillings, since what
   is written may be the byte itself. SHEET, CENTS and THOUSANDS have every line, CENTS whole thousands of dollars, THOUSANDS
   the same in thousands; NEEDS has the longest listing; NUMBERS are those of the movement call, QUARTER the sheet 60 times. */
#define _POSIX_C_SOURCE 200112L
#include <pthread.h>
#include <stdint.h>
#include <stdio.h>
#include <stdlib.h>

#include "tsav.h"

static _Alignas(4096) uint8_t stack[1 << 20];

struct text {
    uint8_t bytes[TSAV_MOST_SHEETS * (TSAV_LONGEST_SHEET + TSAV_SHEET_LINE)];
    size_t length;
};
static struct text sheet, cents, thousands, needs, numbers, sheets;
static uint8_t room[TSAV_LONGEST_SHEET];
static uint64_t amounts[TSAV_MOST_VOLUMES], figures[TSAV_PARTS], place[2], row;

static uint64_t version(void) { return tsav_version() == TSAV_VERSION ? 0 : 1; }
static uint64_t block(void) { return tsav_block(amounts, figures, place); }
static uint64_t shares(void) { return tsav_shares(amounts, figures, place); }
static uint64_t operational(void) { return tsav_operational(amounts, TSAV_MOST_VOLUMES, amounts, figures, place); }
static uint64_t fluctuation(void) { return tsav_fluctuation(row, amounts[0], amounts[0], figures, place); }
static uint64_t report(void) { return tsav_sheet(sheet.bytes, sheet.length, room, sizeof room, figures, place); }
static uint64_t to_thousands(void) { return tsav_convert(cents.bytes, cents.length, room, sizeof room, figures, place); }
static uint64_t to_cents(void) { return tsav_convert(thousands.bytes, thousands.length, room, sizeof room, figures, place); }
static uint64_t check(void) { return tsav_check(sheet.bytes, sheet.length, room, sizeof room, figures, place); }
static uint64_t listing(void) { return tsav_check(needs.bytes, needs.length, room, sizeof room, figures, place); }
static uint64_t movement(void) { return tsav_movement(numbers.bytes, numbers.length, room, sizeof room, figures, place); }
static uint64_t quarter(void) { return tsav_quarter(sheets.bytes, sheets.length, room, sizeof room, figures, place); }

static void fail(const char *what) {
    fprintf(stderr, "bench/calls: %s\n", what);
    exit(2);
}

/* What the thread that calls takes itself, at most, so that nothing less is seen. */
#define OWN 128

static uint64_t (*call)(void);
static int filling;
static uint64_t answer;
static size_t taken;

static void *on_thread(void *nothing) {
    volatile uint8_t *frame = __builtin_frame_address(0);
    for (volatile uint8_t *byte = stack; byte < frame - OWN; byte++) *byte = (uint8_t)filling;
    answer = call();
    volatile uint8_t *deepest = stack;
    while (deepest < frame - OWN && *deepest == filling) deepest++;
    taken = (size_t)(frame - deepest);
    return nothing;
}

static size_t most;

/* An input more of the call that is told next. */
static void measure(uint64_t (*of)(void)) {
    call = of;
    for (filling = 0; filling <= 0xff; filling += 0xff) {
        pthread_attr_t attributes;
        pthread_t thread;
        if (pthread_attr_init(&attributes) || pthread_attr_setstack(&attributes, stack, sizeof stack) ||
            pthread_create(&thread, &attributes, on_thread, NULL) || pthread_join(thread, NULL))
            fail("no thread");
        if (answer) fail("an input is refused");
        if (most < taken) most = taken;
    }
}

static void tell(const char *name) {
    printf("%s %zu\n", name, most);
    most = 0;
}

static void read_in(const char *name, struct text *into) {
    FILE *file = fopen(name, "rb");
    into->length = file ? fread(into->bytes, 1, sizeof into->bytes, file) : 0;
    if (!into->length || fclose(file)) fail("a sheet can't be read");
}

int main(int count, char **words) {
    if (count != 7) fail("usage: calls SHEET CENTS THOUSANDS NEEDS NUMBERS QUARTER");
    read_in(words[1], &sheet);
    read_in(words[2], &cents);
    read_in(words[3], &thousands);
    read_in(words[4], &needs);
    read_in(words[5], &numbers);
    read_in(words[6], &sheets);
    for (size_t at = 0; at < TSAV_MOST_VOLUMES; at++) amounts[at] = TSAV_LARGEST_AMOUNT;

    measure(version);
    tell("tsav_version");
    measure(operational);
    tell("tsav_operational");
    for (row = 1; row <= 7; row++) measure(fluctuation);
    tell("tsav_fluctuation");
    amounts[13] = 0;
    measure(block);
    tell("tsav_block");
    measure(shares);
    tell("tsav_shares");
    measure(report);
    tell("tsav_sheet");
    measure(to_thousands);
    measure(to_cents);
    tell("tsav_convert");
    measure(check);
    measure(listing);
    tell("tsav_check");
    measure(movement);
    tell("tsav_movement");
    measure(quarter);
    tell("tsav_quarter");
    return 0;
}
