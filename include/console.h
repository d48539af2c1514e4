/* The wardens' console, for C: SMP requests from plain choices, and responses read back.
 *
 * It stands above the shelf and needs none: what it builds goes to shelf_smp or small_smp (or to a real expander), and what those answer
 * can be read here. Nobody who uses it packs a bit: a row of permissions is 128 bytes, byte j for group j.
 *
 * Every call takes numbers and pointer-length pairs, answers for all bytes, and has no precondition on their contents.
 * A pointer must be readable (or, where it is not const, readable and writable) for its length in bytes and must not be
 * null, also where the length is 0. No two buffers of one call may overlap where one of the two is written.
 *
 * refusal   0 where the call was answered, else the first of these that holds. A refused call writes no byte of any buffer, and the other
 *           fields of its answer are 0.
 *   21  request_len under 1,020, also for the shortest request; for console_read rows_len under 8,064, also for the shortest response
 *   22  more than 128 phys, or more than 63 rows; or a list that is no whole number of entries
 *   23  a group or a first phy above 127, also where there are no entries, or a priority above 15
 *   24  an order that a shelf of 128 groups answers 02h although the caller has the right to change zoning: a phy that participates with
 *       another group than 1, unless first_phy and the entries pass 128 together; a single order that names group 0 or 1; a batch of at
 *       least one row that starts at group 0 or 1. A report is never refused so.
 *   25  a response that no shelf gives to any of the three requests, by its length or its bytes 0 to 7
 *
 * A number that C could narrow silently is taken as 32 bits and never truncated:
 *   first_phy, first_group, a, b  256 or more is refused as any number above 127: 23
 *   count                         256 or more is refused as any number above 63: 22
 *   on, complete                  any other value than 0 is yes
 *
 * What a built request still can get from a shelf (it is never 03h, and with the right never 02h from a shelf of 128 groups):
 *   00h  done
 *   01h  console_single, console_batch, console_report: the caller has no right to change zoning
 *   02h  console_phy_zones: the caller has no right; on the small shelf (small.h) it, console_single and console_batch get it too
 *       where a phy, the order or a row names a group above 7
 *   10h  console_phy_zones: first_phy and the entries pass the number of phys of that shelf
 *   11h  console_batch: first_group and the rows pass 128
 *
 * The archive is code and constants alone, and calls may run at once, as shelf.h says of its own. README.md says how much stack each call
 * takes. A program may include it beside shelf.h and small.h and link all three archives. */
#ifndef CONSOLE_H
#define CONSOLE_H

#include <stddef.h>
#include <stdint.h>

#ifdef __cplusplus
extern "C" {
#endif

struct console_built {
    uint32_t refusal;
    uint32_t length; /* how many bytes of request were written */
};

struct console_heard {
    uint32_t refusal;
    uint32_t function; /* 0x93, 0xC1 or 0x51 */
    uint32_t result;   /* 0x00, 0x01, 0x02, 0x03, 0x10 or 0x11 */
    uint32_t start;    /* of an accepted report: its first group; else 0 */
    uint32_t count;    /* of an accepted report: how many rows were written; else 0 */
};

/* 93h, the zones of a run of phys: entries has three bytes for each phy from first_phy on: participating (any other value than 0 is yes),
 * priority (0 to 15), group. Refusals: 21, 22, 23, 24. Writes the first length bytes of request. */
struct console_built console_phy_zones(uint8_t *request, size_t request_len, uint32_t first_phy, const uint8_t *entries,
                                       size_t entries_len);

/* C1h, one order: permission between groups a (the request's source, byte 6) and b (its target, byte 7), on or off; a shelf switches both
 * ways. complete: whether all ready phys are told. Refusals: 21, 23, 24. Writes the first 12 bytes of request. */
struct console_built console_single(uint8_t *request, size_t request_len, uint32_t a, uint32_t b, uint32_t on, uint32_t complete);

/* C1h, whole rows: choices has 128 bytes for each row from first_group on, byte j for group j, any other value than 0 is on. The bytes for
 * groups 0 and 1 go into the request as given, and the shelf does not look at them: so rows that console_read gave can be sent back.
 * Refusals: 21, 22, 23, 24. Writes the first length bytes of request. */
struct console_built console_batch(uint8_t *request, size_t request_len, uint32_t first_group, const uint8_t *choices,
                                   size_t choices_len, uint32_t complete);

/* 51h, a report of count rows from first_group on; the shelf answers fewer where there are fewer groups. Refusals: 21, 22, 23. Writes the
 * first 8 bytes of request. */
struct console_built console_report(uint8_t *request, size_t request_len, uint32_t first_group, uint32_t count);

/* A response, whole: response_len is the length that the shelf answered. Of an accepted report count rows are written to rows, 128 bytes
 * each, byte j 1 where the row's group reaches group j, else 0; for any other response nothing is written. Refusals: 21, 25. */
struct console_heard console_read(const uint8_t *response, size_t response_len, uint8_t *rows, size_t rows_len);

#ifdef __cplusplus
}
#endif

#endif
