/* How much stack a call takes: the bytes below its caller's stack pointer that the call writes, the return address included.
 *
 * A trial runs on a stack of its own, which is painted before; the lowest byte that lost its paint tells how deep it was written.
 * What the caller itself writes there is found by a call of a function that only returns, and taken off. Each trial is made with
 * two paints, since a byte that is written may have the paint's value. x86-64 only, as the archives are. */
#include <stdint.h>
#include <stdio.h>
#include <stdlib.h>
#include <string.h>

enum { STACK = 1 << 16, RETURN_ADDRESS = 8 };

/* The answer's refusal, and the field that tells best what was done. */
static uint32_t refusal, done;

static uint8_t stack[STACK] __attribute__((aligned(16)));

typedef void code(void);
static code *volatile callee;

/* Callers: each makes its call with what the trial set up, by way of callee, which is the call or a function that only returns. */
#define CALLEE(call) ((__typeof__(&call))callee)

/* What is set up before each trial's own set-up. */
static code largest;

struct trial {
    const char *name;
    code *caller, *call, *set_up;
    uint32_t refusal, done;
};

static void fail(const struct trial *trial, int place, const char *why) {
    fprintf(stderr, "stack: trial %d, %s: %s; refusal %u, answer %u\n", place, trial->name, why, refusal, done);
    exit(1);
}

static void on_own_stack(code *run) {
    __asm__ volatile("mov %%rsp, %%rbx\n\t"
                     "mov %0, %%rsp\n\t"
                     "call *%1\n\t"
                     "mov %%rbx, %%rsp"
                     :
                     : "r"(stack + STACK), "r"(run)
                     : "rax", "rbx", "rcx", "rdx", "rsi", "rdi", "r8", "r9", "r10", "r11", "xmm0", "xmm1", "xmm2", "xmm3",
                       "xmm4", "xmm5", "xmm6", "xmm7", "xmm8", "xmm9", "xmm10", "xmm11", "xmm12", "xmm13", "xmm14", "xmm15",
                       "cc", "memory");
}

static size_t depth(const struct trial *trial, code *call, int paint) {
    largest();
    trial->set_up();
    refusal = done = 0;
    callee = call;
    memset(stack, paint, STACK);
    on_own_stack(trial->caller);
    size_t untouched = 0;
    while (untouched < STACK && stack[untouched] == paint) untouched++;
    return STACK - untouched;
}

code only_returns, writes_1000_below;
__asm__(".text\n"
        "only_returns: ret\n"
        "writes_1000_below: movb $0, -1000(%rsp)\nret");

static size_t taken(const struct trial *trial, int place) {
    static const int paints[] = {0x5c, 0xa3};
    size_t most = 0;
    for (size_t i = 0; i < sizeof paints / sizeof paints[0]; i++) {
        size_t callers = depth(trial, only_returns, paints[i]) - RETURN_ADDRESS;
        size_t all = depth(trial, trial->call, paints[i]);
        if (refusal != trial->refusal || done != trial->done) fail(trial, place, "another answer than the trial is for");
        if (all == STACK) fail(trial, place, "the painted stack is too small");
        if (all - callers > most) most = all - callers;
    }
    return most;
}

static void by_callee(void) {
    callee();
}

/* A measure that always tells the same depth would tell it of this too. */
static void check_measure(void) {
    static const struct trial known = {"writes_1000_below", by_callee, writes_1000_below, largest, 0, 0};
    size_t callers = depth(&known, only_returns, 0x5c) - RETURN_ADDRESS;
    if (depth(&known, writes_1000_below, 0x5c) - callers != 1000 + RETURN_ADDRESS) fail(&known, 0, "measured wrongly");
}

/* Prints the most that each call takes over its trials, which stand one after the other: one line for a call. */
static void measure(const struct trial *trials, size_t count) {
    check_measure();
    size_t most = 0;
    for (size_t i = 0; i < count; i++) {
        size_t bytes = taken(&trials[i], (int)i);
        if (bytes > most) most = bytes;
        if (i + 1 == count || trials[i + 1].call != trials[i].call) {
            printf("stack of `%s` %zu\n", trials[i].name, most);
            most = 0;
        }
    }
}
