/* The wardens' console through console.h, beside the shelf of shelf.h: an order, a batch, new zones and a report built from plain choices,
 * sent to the shelf, and its responses read back. The output is in console.txt. */
#include <console.h>
#include <shelf.h>

#include <stdio.h>
#include <string.h>

enum { PHYS = 8, RECORD = 16, GROUPS = 128, ROWS = 63 };

static uint8_t phys[PHYS * RECORD], permissions[2048];
static uint8_t request[1020], rows[ROWS * GROUPS];

/* The bench rack: eight phys, all ready, of the groups 1, 2, 8, 8, 9, 9, 0 and 1. */
static void rack(void) {
    static const uint8_t groups[PHYS] = {1, 2, 8, 8, 9, 9, 0, 1};
    for (int i = 0; i < PHYS; i++) {
        uint8_t *record = phys + RECORD * i;
        record[1] = groups[i];
        record[2] = 3;
        record[4] = 0x50;
        record[11] = (uint8_t)(0x10 + i);
    }
    shelf_start_up(permissions, sizeof permissions);
}

/* A response, in words: the rows of a report as lists of groups. */
static void print_heard(const uint8_t *response, size_t length) {
    struct console_heard heard = console_read(response, length, rows, sizeof rows);
    if (heard.refusal != 0) {
        printf("  read: refusal %u\n", heard.refusal);
        return;
    }
    printf("  read: function %02X, result %02X\n", heard.function, heard.result);
    for (uint32_t i = 0; i < heard.count; i++) {
        printf("  group %u reaches", heard.start + i);
        for (int j = 0; j < GROUPS; j++)
            if (rows[GROUPS * i + j]) printf(" %d", j);
        printf("\n");
    }
}

/* What was built, and what the shelf answers to it from phy 0, which is of group 1. */
static void send(const char *what, struct console_built built) {
    uint8_t response[1020], set[16];
    printf("%s: refusal %u, %u bytes\n", what, built.refusal, built.length);
    if (built.refusal != 0) return;
    printf("  sent:");
    for (uint32_t i = 0; i < built.length; i++) printf(" %02X", request[i]);
    printf("\n");
    struct shelf_answered answer = shelf_smp(phys, sizeof phys, permissions, sizeof permissions, 0, 0, 0, 0, request, built.length,
                                             response, sizeof response, set, sizeof set);
    if (answer.refusal == 0) print_heard(response, answer.length);
}

int main(void) {
    static const uint8_t zones[] = {0, 0, 9, 1, 15, 1}, outside[] = {1, 0, 8};
    static const uint8_t no_report[] = {0x41, 0x51, 0x00, 0x00};
    uint8_t two_rows[2 * GROUPS] = {0};
    rack();

    send("groups 8 and 9 on", console_single(request, sizeof request, 8, 9, 1, 1));
    two_rows[5] = 1;
    two_rows[GROUPS + 127] = 1;
    send("row 8: group 5, row 9: group 127", console_batch(request, sizeof request, 8, two_rows, sizeof two_rows, 0));
    send("report from 8", console_report(request, sizeof request, 8, 2));
    /* As it was read, it can be sent back. */
    send("the same rows", console_batch(request, sizeof request, 8, rows, 2 * GROUPS, 0));
    send("phy 3 to group 9, phy 4 participating with priority 15",
         console_phy_zones(request, sizeof request, 3, zones, sizeof zones));
    printf("phy 3's group: %u\n", phys[RECORD * 3 + 1]);

    send("phy 7 and one more", console_phy_zones(request, sizeof request, 7, zones, sizeof zones));
    send("a participating phy in group 8", console_phy_zones(request, sizeof request, 0, outside, sizeof outside));
    send("groups 264 and 9", console_single(request, sizeof request, 256 + 8, 9, 1, 0));
    printf("an accepted report of four bytes:\n");
    print_heard(no_report, sizeof no_report);
    return 0;
}
