/* How much stack each call of shelf.h takes, or with SMALL defined each of small.h, the most over the trials below. painted.h says how it
 * is measured. */
#ifdef SMALL
#include <small.h>
#define NAMED(name) small_##name
#define SHELF "small_"
enum { GROUPS = 8, ROW = 1 };
enum { NO_DESTINATION = SMALL_NO_DESTINATION, BAD_DESTINATION = SMALL_BAD_DESTINATION };
enum { ZONE_VIOLATION = SMALL_ZONE_VIOLATION, FORWARD = SMALL_FORWARD };
#else
#include <shelf.h>
#define NAMED(name) shelf_##name
#define SHELF "shelf_"
enum { GROUPS = 128, ROW = 16 };
enum { NO_DESTINATION = SHELF_NO_DESTINATION, BAD_DESTINATION = SHELF_BAD_DESTINATION };
enum { ZONE_VIOLATION = SHELF_ZONE_VIOLATION, FORWARD = SHELF_FORWARD };
#endif

#include "painted.h"

/* A batch's and a report's rows have sixteen bytes each. A report has 63 of them at most, a batch no more than there are groups
 * from 2 on. */
enum { PHYS = 128, ROUTES = 1024, RECORD = 16, ROUTE = 12, REPORT = 63, BATCH = GROUPS - 2 < REPORT ? GROUPS - 2 : REPORT };

static uint8_t phys[PHYS * RECORD], routes[ROUTES * ROUTE], permissions[GROUPS * ROW];
static uint8_t address[8], frame[28], out[28], set[16], request[12 + 16 * REPORT], response[1020];
static uint8_t sheet[88012], file[16400];
static size_t phys_len, permissions_len, frame_len, request_len, sheet_len, file_len;
static uint32_t phy, number, carried, device_type, attached_phy, expander_changes, phy_changes;

static void start_up(void) {
    refusal = CALLEE(NAMED(start_up))(permissions, permissions_len);
}

static void leaving(void) {
    refusal = CALLEE(NAMED(leaving))(phys, phys_len, phy);
}

static void identify(void) {
    refusal = CALLEE(NAMED(identify))(phys, phys_len, phy, address, sizeof address, device_type, attached_phy);
}

static void elect(void) {
    struct NAMED(elected) answer = CALLEE(NAMED(elect))(phys, phys_len, routes, sizeof routes);
    refusal = answer.refusal;
    done = answer.priority;
}

static void open(void) {
    struct NAMED(opened) answer = CALLEE(NAMED(open))(phys, phys_len, routes, sizeof routes, permissions, permissions_len, phy,
                                                    frame, frame_len, out, sizeof out);
    refusal = answer.refusal;
    done = answer.outcome;
}

static void primitive(void) {
    struct NAMED(told) answer = CALLEE(NAMED(primitive))(phys, phys_len, permissions, permissions_len, phy, number, set,
                                                       sizeof set, out, sizeof out);
    refusal = answer.refusal;
    done = answer.count;
}

static void broadcast_frame(void) {
    struct NAMED(told) answer = CALLEE(NAMED(broadcast_frame))(phys, phys_len, permissions, permissions_len, phy, frame,
                                                             frame_len, set, sizeof set, out, sizeof out);
    refusal = answer.refusal;
    done = answer.count;
}

static void smp(void) {
    struct NAMED(answered) answer = CALLEE(NAMED(smp))(phys, phys_len, permissions, permissions_len, phy, carried,
                                                     expander_changes, phy_changes, request, request_len, response,
                                                     sizeof response, set, sizeof set);
    refusal = answer.refusal;
    done = answer.result;
}

static void import(void) {
    struct NAMED(imported) answer = CALLEE(NAMED(import))(phys, phys_len, permissions, permissions_len, phy, carried, sheet, sheet_len);
    refusal = answer.refusal;
    done = 10 * answer.lines + answer.cause;
}

static void export(void) {
    struct NAMED(exported) answer = CALLEE(NAMED(export))(permissions, permissions_len, sheet, sheet_len);
    refusal = answer.refusal;
    done = answer.length;
}

static void save_version_1(void) {
    struct NAMED(saved) answer = CALLEE(NAMED(save_version_1))(permissions, permissions_len, file, file_len);
    refusal = answer.refusal;
    done = answer.length;
}

static void save_version_2(void) {
    struct NAMED(saved) answer = CALLEE(NAMED(save_version_2))(phys, phys_len, permissions, permissions_len, file, file_len);
    refusal = answer.refusal;
    done = answer.length;
}

static void load_version_1(void) {
    struct NAMED(loaded) answer = CALLEE(NAMED(load_version_1))(permissions, permissions_len, file, file_len);
    refusal = answer.refusal;
    done = answer.version;
}

static void load_version_2(void) {
    struct NAMED(loaded) answer = CALLEE(NAMED(load_version_2))(phys, phys_len, permissions, permissions_len, file, file_len);
    refusal = answer.refusal;
    done = answer.version;
}

/* The largest tables. All phys are ready, participate and are of group 1, which reaches all groups; priorities and addresses
 * rise, so that a search and an election go to the last record. */
static void put_number(uint8_t *to, uint32_t n) {
    to[0] = (uint8_t)(n >> 8);
    to[1] = (uint8_t)n;
}

static void largest(void) {
    memset(phys, 0, sizeof phys);
    for (uint32_t i = 0; i < PHYS; i++) {
        uint8_t *record = phys + RECORD * i;
        record[0] = (uint8_t)(0x10 | i / 16);
        record[1] = 1;
        record[2] = 3;
        put_number(record + 10, 1 + i);
        record[12] = 1;
        record[13] = (uint8_t)i;
    }
    memset(routes, 0, sizeof routes);
    for (uint32_t i = 0; i < ROUTES; i++) {
        uint8_t *record = routes + ROUTE * i;
        put_number(record + 6, 0x8000 + i);
        record[8] = PHYS - 1;
        record[9] = 2;
        record[10] = (uint8_t)(i / 64);
    }
    phys_len = sizeof phys;
    permissions_len = sizeof permissions;
    NAMED(start_up)(permissions, permissions_len);
    phy = 0;
    number = 7;
    carried = 1;
    device_type = 2;
    attached_phy = 255;
    expander_changes = 65535;
    phy_changes = 255;
}

/* Set-ups: what a trial has beside the largest tables. */
static void as_it_is(void) {}

static void phys_cut(void) {
    phys_len--;
}

static void permissions_cut(void) {
    permissions_len--;
}

static void unready(void) {
    phys[2] = 2;
}

static void another_address(void) {
    unready();
    memset(address, 0xff, sizeof address);
}

static void no_address(void) {
    unready();
    memset(address, 0, sizeof address);
}

static void wide_type(void) {
    another_address();
    device_type = 256;
}

static void open_to(uint32_t destination) {
    memset(frame, 0, sizeof frame);
    frame[0] = 1;
    put_number(frame + 10, destination);
    frame[20] = 0x81;
    frame_len = sizeof frame;
}

static void to_last_route(void) {
    open_to(0x8000 + ROUTES - 1);
}

static void to_last_phy(void) {
    open_to(PHYS);
}

static void to_nobody(void) {
    open_to(0xffff);
}

static void to_itself(void) {
    open_to(1);
}

static void from_group_2(void) {
    to_last_route();
    frame[20] = 2;
}

static void from_unzoned_phy(void) {
    to_last_phy();
    phys[0] = 15;
}

static void open_cut(void) {
    to_last_route();
    frame_len--;
}

static void number_8(void) {
    number = 8;
}

static void none_told(void) {
    memset(permissions, 0, sizeof permissions);
}

static void long_frame(void) {
    memset(frame, 0, sizeof frame);
    frame[0] = 0x72;
    frame[3] = 1;
    frame_len = sizeof frame;
}

static void short_frame(void) {
    long_frame();
    frame[0] = 0x73;
    frame_len = 4;
}

static void frame_to_unzoned_phy(void) {
    long_frame();
    phys[0] = 0;
}

/* A request: its function, its length and its bytes 6 to 11; every byte after these is 01h. */
static void ask(uint8_t function, size_t length, const uint8_t from_6[6]) {
    memset(request, 0x01, sizeof request);
    memcpy(request, (const uint8_t[]){0x40, function, 0, (uint8_t)((length - 4) / 4), 0, 0}, 6);
    memcpy(request + 6, from_6, length < 12 ? length - 6 : 6);
    request_len = length;
}

static void all_descriptors(void) {
    ask(0x93, 8 + 2 * PHYS, (const uint8_t[6]){0, PHYS, 0x01, 0x01, 0x01, 0x01});
}

static void descriptors_turned_down(void) {
    all_descriptors();
    request[request_len - 1] = 0x80;
}

static void one_order(void) {
    ask(0xc1, 12, (const uint8_t[6]){2, 0x83, 0, 0x81, 0, 0});
}

static void largest_batch(void) {
    ask(0xc1, 12 + 16 * BATCH, (const uint8_t[6]){0, 0, 0, 0x91, GROUPS - BATCH, BATCH});
}

static void batch_beyond(void) {
    largest_batch();
    request[10] = 128;
}

static void largest_report(void) {
    ask(0x51, 8, (const uint8_t[6]){0, REPORT});
}

static void last_discovered(void) {
    ask(0x10, 12, (const uint8_t[6]){0, 0, 0, PHYS - 1, 0, 0});
}

static void hidden(void) {
    last_discovered();
    phys[RECORD * (PHYS - 1) + 1] = 3;
    carried = 5;
}

static void hidden_shown(void) {
    hidden();
    request[8] = 1;
}

static void discover_beyond(void) {
    last_discovered();
    request[9] = PHYS;
}

static void discover_cut(void) {
    last_discovered();
    request_len = 8;
}

static void wide_count(void) {
    last_discovered();
    expander_changes = 65536;
}

static void other_function(void) {
    ask(0x11, 8, (const uint8_t[6]){0});
}

static void without_right(void) {
    largest_batch();
    carried = 5;
}

static void request_cut(void) {
    largest_batch();
    request_len = 3;
}

/* Every pair is permitted, and the sheet has a line for each: PAIRS lines, LONGEST bytes. */
enum { PAIRS = (GROUPS - 2) * (GROUPS - 1) / 2, LONGEST = GROUPS == 8 ? 147 : 74549, SHEET_MOST = 88011 };

static void all_on(void) {
    memset(permissions, 0xff, sizeof permissions);
    sheet_len = SHEET_MOST;
}

static void all_pairs(void) {
    all_on();
    sheet_len = NAMED(export)(permissions, permissions_len, sheet, sheet_len).length;
    NAMED(start_up)(permissions, permissions_len);
}

static void long_number(void) {
    memset(sheet, '9', sizeof sheet);
    memcpy(sheet + SHEET_MOST - 6, ",2,1\r\n", 6);
    sheet_len = SHEET_MOST;
}

static void bad_last_line(void) {
    all_pairs();
    sheet_len--;
}

static void sheet_without_right(void) {
    all_pairs();
    carried = 5;
}

static void sheet_too_long(void) {
    sheet_len = SHEET_MOST + 1;
}

static void wide_carried(void) {
    all_pairs();
    carried = 256;
}

static void little_room(void) {
    sheet_len = SHEET_MOST - 1;
}

static void nothing_on(void) {
    sheet_len = SHEET_MOST;
}

/* The longest files: every pair, by orders from start-up, and every phy. */
enum { FILE_1 = 2 * PAIRS + 12, FILE_2 = 2 * PAIRS + 3 * PHYS + 14 };

static void every_pair(void) {
    all_pairs();
    NAMED(import)(phys, phys_len, permissions, permissions_len, phy, carried, sheet, sheet_len);
    file_len = sizeof file;
}

static void no_pair(void) {
    file_len = sizeof file;
}

static void last_row_one_way(void) {
    every_pair();
    permissions[sizeof permissions - 1] &= 0xfb;
}

static void last_zone_reserved(void) {
    every_pair();
    phys[RECORD * (PHYS - 1)] |= 0x20;
}

static void room_too_little(void) {
    every_pair();
    file_len = sizeof file - 1;
}

static void longest_1(void) {
    every_pair();
    file_len = NAMED(save_version_1)(permissions, permissions_len, file, file_len).length;
    NAMED(start_up)(permissions, permissions_len);
}

static void longest_2(void) {
    every_pair();
    file_len = NAMED(save_version_2)(phys, phys_len, permissions, permissions_len, file, file_len).length;
    NAMED(start_up)(permissions, permissions_len);
}

static void last_pair_turned(void) {
    longest_1();
    file[2 * PAIRS - 1] = 2;
}

static void last_zone_of_file_reserved(void) {
    longest_2();
    file[2 * PAIRS + 3 * PHYS - 2] |= 0x20;
}

static void file_cut(void) {
    longest_1();
    file_len = 11;
}

#define TRIAL(call, ...) {SHELF #call, call, (code *)NAMED(call), __VA_ARGS__}

static const struct trial trials[] = {
    TRIAL(start_up, as_it_is, 0, 0),
    TRIAL(start_up, permissions_cut, 1, 0),
    TRIAL(leaving, as_it_is, 0, 0),
    TRIAL(leaving, unready, 7, 0),
    TRIAL(leaving, phys_cut, 1, 0),
    TRIAL(identify, another_address, 0, 0),
    TRIAL(identify, no_address, 5, 0),
    TRIAL(identify, wide_type, 5, 0),
    TRIAL(identify, as_it_is, 7, 0),
    TRIAL(elect, as_it_is, 0, 15),
    TRIAL(elect, phys_cut, 1, 0),
    TRIAL(open, to_last_route, 0, FORWARD),
    TRIAL(open, to_last_phy, 0, FORWARD),
    TRIAL(open, from_unzoned_phy, 0, FORWARD),
    TRIAL(open, from_group_2, 0, ZONE_VIOLATION),
    TRIAL(open, to_itself, 0, BAD_DESTINATION),
    TRIAL(open, to_nobody, 0, NO_DESTINATION),
    TRIAL(open, open_cut, 4, 0),
    TRIAL(primitive, as_it_is, 0, PHYS - 1),
    TRIAL(primitive, none_told, 0, 0),
    TRIAL(primitive, number_8, 5, 0),
    TRIAL(broadcast_frame, long_frame, 0, PHYS - 1),
    TRIAL(broadcast_frame, short_frame, 0, PHYS - 1),
    TRIAL(broadcast_frame, frame_to_unzoned_phy, 6, 0),
    TRIAL(smp, all_descriptors, 0, 0x00),
    TRIAL(smp, descriptors_turned_down, 0, 0x02),
    TRIAL(smp, one_order, 0, 0x00),
    TRIAL(smp, largest_batch, 0, 0x00),
    TRIAL(smp, batch_beyond, 0, 0x11),
    TRIAL(smp, largest_report, 0, 0x00),
    TRIAL(smp, last_discovered, 0, 0x00),
    TRIAL(smp, hidden, 0, 0x16),
    TRIAL(smp, hidden_shown, 0, 0x00),
    TRIAL(smp, discover_beyond, 0, 0x10),
    TRIAL(smp, discover_cut, 0, 0x03),
    TRIAL(smp, wide_count, 5, 0),
    TRIAL(smp, other_function, 0, 0x01),
    TRIAL(smp, without_right, 0, 0x01),
    TRIAL(smp, request_cut, 4, 0),
    TRIAL(import, all_pairs, 0, 10 * PAIRS),
    TRIAL(import, bad_last_line, 0, 10 * PAIRS + 1),
    TRIAL(import, long_number, 0, 10 * 1 + 2),
    TRIAL(import, sheet_without_right, 0, 10 * 1 + 3),
    TRIAL(import, sheet_too_long, 3, 0),
    TRIAL(import, wide_carried, 5, 0),
    TRIAL(export, all_on, 0, LONGEST),
    TRIAL(export, nothing_on, 0, 0),
    TRIAL(export, little_room, 3, 0),
    TRIAL(export, permissions_cut, 1, 0),
    TRIAL(save_version_1, every_pair, 0, FILE_1),
    TRIAL(save_version_1, no_pair, 0, 12),
    TRIAL(save_version_1, last_row_one_way, 40, 0),
    TRIAL(save_version_1, room_too_little, 3, 0),
    TRIAL(save_version_1, permissions_cut, 1, 0),
    TRIAL(save_version_2, every_pair, 0, FILE_2),
    TRIAL(save_version_2, no_pair, 0, 3 * PHYS + 14),
    TRIAL(save_version_2, last_row_one_way, 40, 0),
    TRIAL(save_version_2, last_zone_reserved, 41, 0),
    TRIAL(save_version_2, room_too_little, 3, 0),
    TRIAL(save_version_2, phys_cut, 1, 0),
    TRIAL(load_version_1, longest_1, 0, 1),
    TRIAL(load_version_1, longest_2, 32, 0),
    TRIAL(load_version_1, last_pair_turned, 37, 0),
    TRIAL(load_version_1, file_cut, 31, 0),
    TRIAL(load_version_2, longest_2, 0, 2),
    TRIAL(load_version_2, longest_1, 0, 1),
    TRIAL(load_version_2, last_zone_of_file_reserved, 39, 0),
    TRIAL(load_version_2, last_pair_turned, 37, 0),
    TRIAL(load_version_2, file_cut, 31, 0),
};

int main(void) {
    measure(trials, sizeof trials / sizeof trials[0]);
    return 0;
}
