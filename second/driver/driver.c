/* Makes the calls of shelf.h, or with SMALL defined those of small.h, and those of console.h, that arrive on standard input and
 * writes each answer to standard output.
 *
 * The protocol, all numbers little-endian, is told in src/trial/call.rs. Buffers lie between guard bytes: a write beside a
 * buffer, or into one that is const, is reported in the answer's second byte. */
#ifdef SMALL
#include <small.h>
#define NAMED(name) small_##name
#else
#include <shelf.h>
#define NAMED(name) shelf_##name
#endif

#include <console.h>
#include <stdio.h>
#include <stdlib.h>
#include <string.h>

enum { SEND_ON = 255, NUMBERS = 4, BUFFERS = 5, FIELDS = 5, GUARD = 64, LARGEST = 1 << 17, STREAM = 1 << 18 };

/* What a call takes: how many numbers and buffers, and which buffers are not const (bit i for buffer i). */
struct shape {
    int numbers, buffers;
    unsigned written;
};

static const struct shape shapes[] = {
    {0, 1, 0x01}, /* start_up */
    {1, 1, 0x01}, /* leaving */
    {3, 2, 0x01}, /* identify */
    {0, 2, 0x00}, /* elect */
    {1, 5, 0x10}, /* open */
    {2, 4, 0x0c}, /* primitive */
    {1, 5, 0x18}, /* broadcast_frame */
    {4, 5, 0x1b}, /* smp */
    {2, 3, 0x02}, /* import */
    {0, 2, 0x02}, /* export */
    {0, 2, 0x02}, /* save_version_1 */
    {0, 3, 0x04}, /* save_version_2 */
    {0, 2, 0x01}, /* load_version_1 */
    {0, 3, 0x03}, /* load_version_2 */
    {1, 2, 0x01}, /* console_phy_zones */
    {4, 1, 0x01}, /* console_single */
    {2, 2, 0x01}, /* console_batch */
    {2, 1, 0x01}, /* console_report */
    {0, 2, 0x02}, /* console_read */
};

static uint32_t n[NUMBERS];
static uint8_t *b[BUFFERS];
static size_t len[BUFFERS];
static uint64_t field[FIELDS];

/* All buffers of a call, one after the other, a guard before each and after the last; and the same before the call. */
static uint8_t arena[BUFFERS * (LARGEST + GUARD) + GUARD], before[sizeof arena];

static void fail(const char *why) {
    fprintf(stderr, "driver: %s\n", why);
    exit(1);
}

static void take(void *to, size_t length) {
    if (fread(to, 1, length, stdin) != length) fail("a call is cut off");
}

static uint32_t take_u32(void) {
    uint8_t x[4];
    take(x, sizeof x);
    return x[0] | (uint32_t)x[1] << 8 | (uint32_t)x[2] << 16 | (uint32_t)x[3] << 24;
}

static void give(const void *from, size_t length) {
    if (fwrite(from, 1, length, stdout) != length) fail("nobody takes the answers");
}

static void give_u64(uint64_t number) {
    uint8_t x[8];
    for (int i = 0; i < 8; i++) x[i] = (uint8_t)(number >> (8 * i));
    give(x, sizeof x);
}

/* Reads the call's numbers and buffers; answers how many bytes of the arena are in use. */
static size_t take_call(const struct shape *shape) {
    size_t at = GUARD;
    for (int i = 0; i < shape->numbers; i++) n[i] = take_u32();
    for (int i = 0; i < shape->buffers; i++) {
        len[i] = take_u32();
        if (len[i] > LARGEST) fail("a buffer is too large");
        b[i] = arena + at;
        take(b[i], len[i]);
        memset(b[i] + len[i], 0x5c, GUARD);
        at += len[i] + GUARD;
    }
    memcpy(before, arena, at);
    return at;
}

/* Whether every byte that no call may write is as before: guards and const buffers. */
static int intact(const struct shape *shape, size_t used) {
    size_t from = 0;
    for (int i = 0; i < shape->buffers; i++) {
        size_t start = (size_t)(b[i] - arena);
        if (!(shape->written >> i & 1)) continue;
        if (memcmp(arena + from, before + from, start - from) != 0) return 0;
        from = start + len[i];
    }
    return memcmp(arena + from, before + from, used - from) == 0;
}

static void told(struct NAMED(told) answer) {
    field[0] = answer.refusal;
    field[1] = answer.count;
}

static void elected(struct NAMED(elected) answer) {
    field[0] = answer.refusal;
    field[1] = answer.priority;
    field[2] = answer.address;
}

static void opened(struct NAMED(opened) answer) {
    field[0] = answer.refusal;
    field[1] = answer.outcome;
    field[2] = answer.phy;
}

static void answered(struct NAMED(answered) answer) {
    field[0] = answer.refusal;
    field[1] = answer.result;
    field[2] = answer.length;
    field[3] = answer.count;
}

static void imported(struct NAMED(imported) answer) {
    field[0] = answer.refusal;
    field[1] = answer.lines;
    field[2] = answer.cause;
}

static void exported(struct NAMED(exported) answer) {
    field[0] = answer.refusal;
    field[1] = answer.length;
}

static void saved(struct NAMED(saved) answer) {
    field[0] = answer.refusal;
    field[1] = answer.length;
}

static void loaded(struct NAMED(loaded) answer) {
    field[0] = answer.refusal;
    field[1] = answer.version;
}

static void built(struct console_built answer) {
    field[0] = answer.refusal;
    field[1] = answer.length;
}

static void heard(struct console_heard answer) {
    field[0] = answer.refusal;
    field[1] = answer.function;
    field[2] = answer.result;
    field[3] = answer.start;
    field[4] = answer.count;
}

static void make_call(int which) {
    memset(field, 0, sizeof field);
    switch (which) {
    case 0: field[0] = NAMED(start_up)(b[0], len[0]); break;
    case 1: field[0] = NAMED(leaving)(b[0], len[0], n[0]); break;
    case 2: field[0] = NAMED(identify)(b[0], len[0], n[0], b[1], len[1], n[1], n[2]); break;
    case 3: elected(NAMED(elect)(b[0], len[0], b[1], len[1])); break;
    case 4: opened(NAMED(open)(b[0], len[0], b[1], len[1], b[2], len[2], n[0], b[3], len[3], b[4], len[4])); break;
    case 5: told(NAMED(primitive)(b[0], len[0], b[1], len[1], n[0], n[1], b[2], len[2], b[3], len[3])); break;
    case 6:
        told(NAMED(broadcast_frame)(b[0], len[0], b[1], len[1], n[0], b[2], len[2], b[3], len[3], b[4], len[4]));
        break;
    case 7:
        answered(NAMED(smp)(b[0], len[0], b[1], len[1], n[0], n[1], n[2], n[3], b[2], len[2], b[3], len[3], b[4],
                            len[4]));
        break;
    case 8: imported(NAMED(import)(b[0], len[0], b[1], len[1], n[0], n[1], b[2], len[2])); break;
    case 9: exported(NAMED(export)(b[0], len[0], b[1], len[1])); break;
    case 10: saved(NAMED(save_version_1)(b[0], len[0], b[1], len[1])); break;
    case 11: saved(NAMED(save_version_2)(b[0], len[0], b[1], len[1], b[2], len[2])); break;
    case 12: loaded(NAMED(load_version_1)(b[0], len[0], b[1], len[1])); break;
    case 13: loaded(NAMED(load_version_2)(b[0], len[0], b[1], len[1], b[2], len[2])); break;
    case 14: built(console_phy_zones(b[0], len[0], n[0], b[1], len[1])); break;
    case 15: built(console_single(b[0], len[0], n[0], n[1], n[2], n[3])); break;
    case 16: built(console_batch(b[0], len[0], n[0], b[1], len[1], n[1])); break;
    case 17: built(console_report(b[0], len[0], n[0], n[1])); break;
    case 18: heard(console_read(b[0], len[0], b[1], len[1])); break;
    }
}

static void give_answer(int which, size_t used) {
    const struct shape *shape = &shapes[which];
    uint8_t head[2] = {(uint8_t)which, (uint8_t)!intact(shape, used)};
    give(head, sizeof head);
    for (int i = 0; i < FIELDS; i++) give_u64(field[i]);
    for (int i = 0; i < shape->buffers; i++)
        if (shape->written >> i & 1) give(b[i], len[i]);
}

static void send_on(void) {
    if (fflush(stdout) != 0) fail("nobody takes the answers");
}

int main(void) {
    static char in[STREAM], out[STREAM];
    setvbuf(stdin, in, _IOFBF, sizeof in);
    setvbuf(stdout, out, _IOFBF, sizeof out);
    memset(arena, 0x5c, GUARD);
    int which;
    while ((which = getchar()) != EOF) {
        if (which == SEND_ON) {
            send_on();
            continue;
        }
        if ((size_t)which >= sizeof shapes / sizeof shapes[0]) fail("no such call");
        size_t used = take_call(&shapes[which]);
        make_call(which);
        give_answer(which, used);
    }
    send_on();
    return 0;
}
