/* The zoning part of a SAS expander, the small shelf's profile, for C. The calls, their answers and every frame are those of shelf.h;
 * what differs is the permission table, and what is said under Groups.
 *
 * Every call takes numbers and pointer-length pairs, answers for all bytes, and has no precondition on their contents.
 * A pointer must be readable (or, where it is not const, readable and writable) for its length in bytes and must not be
 * null, also where the length is 0. No two buffers of one call may overlap where one of the two is written.
 *
 * refusal   0 where the call was answered, else the numbered refusal of the scope document (1 to 8) or, of a saved file, one of
 *           those below (31 to 41). A refused call writes no byte of any buffer, and the other fields of its answer are 0.
 *
 * A number that C could narrow silently is taken as 32 bits and never truncated:
 *   phy      256 or more is refused as any number that is not below the number of phys: 2
 *   number   256 or more is refused as any primitive number over 7: 5
 *   carried  256 or more is no byte: refused as 5 on any phy, after the other causes of 5
 *   device_type, attached_phy, phy_changes  256 or more, and expander_changes  65,536 or more: refused as 5 after the other causes of 5,
 *            whatever the request is
 *
 * Sizes: phys 1 to 128 records of 16 bytes; routes 0 to 1,024 records of 12 bytes; permissions 8 bytes.
 *
 * Groups: the permission table holds groups 0 to 7, group a's row in byte a, group j in bit j. Groups 8 to 127 reach only group 1 and
 * are reached only by it. Phy records, route records, frames and carried bytes may name them; an SMP request that would write a group
 * above 7 (a C1h single order or batch row, a 93h descriptor) gets result 02h where nothing else is wrong with it, and the bits for
 * such groups in a batch row are ignored. A report shows all 128 groups, in document 01's rows of 16 bytes.
 *
 * Group bytes: in carried, in byte 3 of a broadcast frame and in byte 9 of a route record a byte above 127 is no group. On a
 * participating phy such a carried byte, or such a byte 3, is refused as 5, after the other causes of 5; on a phy that is not
 * participating neither is read. A route record with such a byte 9 is skipped in small_open's search, which goes on, and is no
 * candidate in small_elect. In byte 20 of an OPEN frame and in byte 1 of a phy record the group is the low 7 bits.
 *
 * Ports: all ready phys with the same attached address are one port, by the phy table as it is at the call; a phy whose address is
 * zero is a port by itself.
 *
 * The archive is code and constants alone. It calls nothing outside itself and has no variables: no C library, no heap, no
 * globals. All that a call knows is in its arguments, so calls may run at once, on several cores or one interrupting another,
 * where no buffer that one of them takes as not const overlaps a buffer of another. Calls that only read may share their tables;
 * calls that share a table which one of them writes must not run at once: the caller lets one end before the next starts.
 * Like any code of the x86-64 System V ABI it may use the 128 bytes below the stack pointer: an interrupt handler on the same
 * stack must leave them as they are. README.md says how much stack each call takes. */
#ifndef SMALL_H
#define SMALL_H

#include <stddef.h>
#include <stdint.h>

#ifdef __cplusplus
extern "C" {
#endif

/* small_open's outcome */
enum { SMALL_NO_DESTINATION = 1, SMALL_BAD_DESTINATION = 2, SMALL_ZONE_VIOLATION = 3, SMALL_FORWARD = 4 };

/* small_import's cause: why a line of a sheet failed */
enum { SMALL_BAD_TEXT = 1, SMALL_NO_SUCH_GROUP = 2, SMALL_NO_RIGHT = 3 };

/* the most bytes that a sheet may have, and the room that small_export asks for */
enum { SMALL_SHEET_MOST = 88011 };

/* the room that both saves ask for; a file of version 1 has at most 54 bytes, one of version 2 at most 440 */
enum { SMALL_FILE_ROOM = 16400 };

/* why a file is not loaded, in the order of checking: each is looked for in the whole file before the next */
enum {
    SMALL_FILE_TOO_SHORT = 31,       /* under 12 bytes */
    SMALL_FILE_VERSION_2 = 32,       /* version 2, at the reader of version 1 */
    SMALL_FILE_VERSION_UNKNOWN = 33, /* any other version that the reader does not know */
    SMALL_FILE_LENGTHS = 34,         /* the length in the trailer, or what the counts add up to, is not the file's length */
    SMALL_FILE_OFFSET = 35,          /* the offset of the first record is not 0 */
    SMALL_FILE_PHY_COUNT = 36,       /* another number of phys than the table lent has */
    SMALL_FILE_PAIR = 37,            /* a pair out of range or order */
    SMALL_FILE_PHY = 38,             /* a phy out of range or order */
    SMALL_FILE_ZONE = 39             /* bytes 0 and 1 of a phy that 93h would answer with 02h, or with a reserved bit set */
};

/* why a table is not saved */
enum {
    SMALL_TABLE_PERMISSIONS = 40, /* not mutual, or other rows for groups 0 and 1 than at start-up */
    SMALL_TABLE_PHYS = 41         /* a phy's bytes 0 and 1 that 93h could not have written */
};

struct small_elected {
    uint32_t refusal;
    uint32_t priority; /* 0 where there is no candidate */
    uint64_t address;  /* 0 where there is no candidate */
};

struct small_opened {
    uint32_t refusal;
    uint32_t outcome; /* 1 to 4 */
    uint32_t phy;     /* the phy to forward on, where outcome is SMALL_FORWARD; else 0 */
};

struct small_told {
    uint32_t refusal;
    uint32_t count; /* how many phys the set holds */
};

struct small_answered {
    uint32_t refusal;
    uint32_t result; /* the response's byte 2 */
    uint32_t length; /* how many bytes of the response were written */
    uint32_t count;  /* how many phys the set holds */
};

struct small_imported {
    uint32_t refusal;
    uint32_t lines; /* how many lines the sheet has, where cause is 0; else the number of the line that failed, from 1 */
    uint32_t cause; /* 0 where every line was accepted; else 1 to 3 */
};

struct small_exported {
    uint32_t refusal;
    uint32_t length; /* how many bytes of the sheet were written */
};

struct small_saved {
    uint32_t refusal;
    uint32_t length; /* how many bytes the file has */
};

struct small_loaded {
    uint32_t refusal;
    uint32_t version; /* the file's version, 1 or 2: of version 1 the phys stay as they are */
};

/* Start-up. Refusals: 1. Writes all of permissions. */
uint32_t small_start_up(uint8_t *permissions, size_t permissions_len);

/* A phy leaves the ready state. Refusals: 1, 2, 7. Writes byte 2 of the phy's record. */
uint32_t small_leaving(uint8_t *phys, size_t phys_len, uint32_t phy);

/* IDENTIFY arrives: address is the attached SAS address, 8 bytes, big-endian; device_type is the attached device's type, of which the low
 * 3 bits are kept; attached_phy is the attached device's own phy. Refusals: 1, 2, 7 (already ready), 4 (address_len is not 8), 5 (address
 * zero, then device_type or attached_phy over 255). Writes bytes 2, 4 to 11, 12 and 13 of the phy's record and, where another address was
 * known, bytes 0 and 1. */
uint32_t small_identify(uint8_t *phys, size_t phys_len, uint32_t phy, const uint8_t *address, size_t address_len,
                        uint32_t device_type, uint32_t attached_phy);

/* The elected supervisor. Refusals: 1. Writes nothing. */
struct small_elected small_elect(const uint8_t *phys, size_t phys_len, const uint8_t *routes, size_t routes_len);

/* An OPEN frame arrives. Refusals: 1, 2, 3 (out_len under 28), 7, 4, 5. Writes the first 28 bytes of out, and only where the
 * outcome is SMALL_FORWARD. The outcome is SMALL_BAD_DESTINATION where the phy found is in the arriving phy's port. */
struct small_opened small_open(const uint8_t *phys, size_t phys_len, const uint8_t *routes, size_t routes_len,
                               const uint8_t *permissions, size_t permissions_len, uint32_t phy, const uint8_t *frame,
                               size_t frame_len, uint8_t *out, size_t out_len);

/* A broadcast primitive arrives. Refusals: 1, 2, 3 (set_len under 16 or out_len under 28), 7, 5. Writes the first 16 bytes of
 * set and the first 28 of out, the frame for participating phys. The set has, of each port but the arriving phy's, the lowest phy
 * whose group the source group may reach. */
struct small_told small_primitive(const uint8_t *phys, size_t phys_len, const uint8_t *permissions, size_t permissions_len,
                                  uint32_t phy, uint32_t number, uint8_t *set, size_t set_len, uint8_t *out, size_t out_len);

/* A broadcast frame arrives. Refusals: 1, 2, 3 (set_len under 16 or out_len under 28), 7, 4, 5, 6. Writes as small_primitive. */
struct small_told small_broadcast_frame(const uint8_t *phys, size_t phys_len, const uint8_t *permissions,
                                        size_t permissions_len, uint32_t phy, const uint8_t *frame, size_t frame_len,
                                        uint8_t *set, size_t set_len, uint8_t *out, size_t out_len);

/* An SMP request arrives; carried is the group of the connection's OPEN, handed in with bit 7 taken off: bits 6 to 0 of its byte 20.
 * The whole byte, where its bit 7 (ACCESS ZONE MANAGEMENT) is one, is no group. expander_changes and phy_changes are the change counts that
 * the caller keeps, of the expander and of the phy that a DISCOVER (10h) asks for; no other function reads them. Refusals: 1, 2, 3
 * (response_len under 1,020 or set_len under 16), 7, 4, 5, 8. Writes the first length bytes of response and the first 16 of set; where result is 0 and the function is 93h
 * also bytes 0 and 1 of the records named, and where it is C1h also permissions. Where result is not 0 length is 4 and the 16 bytes of
 * set are zero. A change notice (93h, C1h) goes to all ready phys, whatever their ports.
 *
 * What a DISCOVER with the ignore bit zero (byte 8, bit 0) gets depends on the change counts, on how many phys there are, and on the
 * records of those phys alone that the source group may reach; of any other phy it gets the same four bytes, result 16h. With the bit one it
 * shows any phy to any caller, and small_open tells an address that is on the shelf (ZONE VIOLATION) from one that is not (NO DESTINATION):
 * docs/PROMISES.md, "What a member can learn". */
struct small_answered small_smp(uint8_t *phys, size_t phys_len, uint8_t *permissions, size_t permissions_len, uint32_t phy,
                                uint32_t carried, uint32_t expander_changes, uint32_t phy_changes, const uint8_t *request,
                                size_t request_len, uint8_t *response, size_t response_len, uint8_t *set, size_t set_len);

/* A sheet of orders is read, in the order of its lines. A line is group, group and 1 (on) or 0 (off), in decimal without leading zeros,
 * separated by commas and ended by CR LF or LF: "8,9,1". A sheet is such lines and nothing else; one without a byte has none. Each line is
 * one single order (C1h) without UPDATE COMPLETE from phy, where carried is as for small_smp. Refusals: 1, 2, 3 (sheet_len over 88,011), 7, 5
 * (carried: on a participating phy above 127, then over 255 on any phy).
 * The first line that fails ends the import: cause is SMALL_BAD_TEXT (no such line, or no end of line), else SMALL_NO_SUCH_GROUP (a group below
 * 2 or above 7), else SMALL_NO_RIGHT (the caller has not the right, by the table as the lines before left it). That is an answer and no
 * refusal: the lines before it are done and stay. Writes permissions alone. */
struct small_imported small_import(const uint8_t *phys, size_t phys_len, uint8_t *permissions, size_t permissions_len,
                                   uint32_t phy, uint32_t carried, const uint8_t *sheet, size_t sheet_len);

/* The permitted pairs as a sheet: a line a,b,1 with CR LF for every a <= b from 2 to 7 with permission on in row a, ascending by a and
 * then b. Refusals: 1, 3 (sheet_len under 88,011, whatever the table holds). Writes the first length bytes of sheet, 147 at most. */
struct small_exported small_export(const uint8_t *permissions, size_t permissions_len, uint8_t *sheet, size_t sheet_len);

/* The permission table as a file of version 1: two bytes a, b for every a <= b from 2 to 7 with permission on, ascending by a and then b; then
 * 12 bytes, big-endian: the version, 1 (2 bytes), how many pairs (2), the offset of the first, 0 (4), and the file's length (4). Refusals: 1, 3
 * (file_len under 16,400, whatever the table holds), 40. Writes the first length bytes of file. */
struct small_saved small_save_version_1(const uint8_t *permissions, size_t permissions_len, uint8_t *file, size_t file_len);

/* Both tables as a file of version 2: the pairs; three bytes for every phy, ascending: its number and bytes 0 and 1 of its record; how many phys
 * (2 bytes), and the 12 bytes of version 1 with version 2. Refusals: 1, 3 (as for version 1), 40, 41. Writes the first length bytes of file. */
struct small_saved small_save_version_2(const uint8_t *phys, size_t phys_len, const uint8_t *permissions, size_t permissions_len,
                                      uint8_t *file, size_t file_len);

/* A file of version 1 is read back: file_len is the file's own length. A load is start-up and then a switch-on of each pair: what was
 * ordered before it is forgotten. No phy speaks, no right is asked and no set is made: who may load is the caller's matter. Refusals: 1, 31 to
 * 35, 37. Writes all of permissions. */
struct small_loaded small_load_version_1(uint8_t *permissions, size_t permissions_len, const uint8_t *file, size_t file_len);

/* The reader of version 2, which takes files of version 1 too. Refusals: 1, 31, 33 to 39. Writes all of permissions and, from version 2, bytes 0
 * and 1 of every phy's record; from version 1 it leaves phys as it is. */
struct small_loaded small_load_version_2(uint8_t *phys, size_t phys_len, uint8_t *permissions, size_t permissions_len,
                                       const uint8_t *file, size_t file_len);

#ifdef __cplusplus
}
#endif

#endif
