/* How much stack each call of console.h takes, the most over the trials below. painted.h says how it is measured. */
#include <console.h>

#include "painted.h"

enum { PHYS = 128, ENTRY = 3, ROWS = 63, ROW = 128, SENT = 16 };

static uint8_t request[1020], entries[PHYS * ENTRY + ENTRY], rows[(ROWS + 1) * ROW], response[12 + SENT * ROWS];
static size_t request_len, entries_len, choices_len, response_len, rows_len;
static uint32_t first, second, count;

static void phy_zones(void) {
    struct console_built answer = CALLEE(console_phy_zones)(request, request_len, first, entries, entries_len);
    refusal = answer.refusal;
    done = answer.length;
}

static void single(void) {
    struct console_built answer = CALLEE(console_single)(request, request_len, first, second, 1, 1);
    refusal = answer.refusal;
    done = answer.length;
}

static void batch(void) {
    struct console_built answer = CALLEE(console_batch)(request, request_len, first, rows, choices_len, 1);
    refusal = answer.refusal;
    done = answer.length;
}

static void report(void) {
    struct console_built answer = CALLEE(console_report)(request, request_len, first, count);
    refusal = answer.refusal;
    done = answer.length;
}

static void read(void) {
    struct console_heard answer = CALLEE(console_read)(response, response_len, rows, rows_len);
    refusal = answer.refusal;
    done = answer.count;
}

/* 128 phys that participate in group 1, 63 rows of which every group is on, and a report of as many. */
static void largest(void) {
    memset(entries, 1, sizeof entries);
    memset(rows, 1, sizeof rows);
    memset(response, 0xff, sizeof response);
    memcpy(response, (const uint8_t[]){0x41, 0x51, 0, 2 + 4 * ROWS, 0, 0, 2, ROWS}, 8);
    request_len = sizeof request;
    entries_len = PHYS * ENTRY;
    choices_len = ROWS * ROW;
    response_len = sizeof response;
    rows_len = ROWS * ROW;
    first = 0;
    second = 127;
    count = ROWS;
}

/* Set-ups: what a trial has beside these. */
static void as_it_is(void) {}

static void from_group_2(void) {
    first = 2;
}

static void no_room(void) {
    request_len--;
    rows_len--;
}

static void one_more(void) {
    entries_len += ENTRY;
    choices_len += ROW;
    count++;
}

static void too_high(void) {
    first = 256 + 8;
}

static void last_phy_in_another_group(void) {
    entries[entries_len - 1] = 2;
}

static void turned_down(void) {
    memcpy(response, (const uint8_t[]){0x41, 0xc1, 0x11, 0}, 4);
    response_len = 4;
}

static void cut(void) {
    response_len--;
}

#define TRIAL(call, ...) {"console_" #call, call, (code *)console_##call, __VA_ARGS__}

static const struct trial trials[] = {
    TRIAL(phy_zones, as_it_is, 0, 8 + 2 * PHYS),
    TRIAL(phy_zones, no_room, 21, 0),
    TRIAL(phy_zones, one_more, 22, 0),
    TRIAL(phy_zones, too_high, 23, 0),
    TRIAL(phy_zones, last_phy_in_another_group, 24, 0),
    TRIAL(single, from_group_2, 0, 12),
    TRIAL(single, no_room, 21, 0),
    TRIAL(single, too_high, 23, 0),
    TRIAL(single, as_it_is, 24, 0),
    TRIAL(batch, from_group_2, 0, 12 + SENT * ROWS),
    TRIAL(batch, no_room, 21, 0),
    TRIAL(batch, one_more, 22, 0),
    TRIAL(batch, too_high, 23, 0),
    TRIAL(batch, as_it_is, 24, 0),
    TRIAL(report, as_it_is, 0, 8),
    TRIAL(report, no_room, 21, 0),
    TRIAL(report, one_more, 22, 0),
    TRIAL(report, too_high, 23, 0),
    TRIAL(read, as_it_is, 0, ROWS),
    TRIAL(read, turned_down, 0, 0),
    TRIAL(read, no_room, 21, 0),
    TRIAL(read, cut, 25, 0),
};

int main(void) {
    measure(trials, sizeof trials / sizeof trials[0]);
    return 0;
}
