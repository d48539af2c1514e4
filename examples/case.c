/* Cases 1 and 2 of the scope document on the bench rack with what a member's phy sees before and after, then a port of two phys, then the
 * group that is carried for SMP, then what a member learns of a neighbour's disk, then sheets, through shelf.h. The output is in case.txt. */
#include <shelf.h>

#include <stdio.h>
#include <string.h>

enum { PHYS = 8, RECORD = 16 };

/* What this caller hands in: the attached device's type and phy with IDENTIFY, and its counts of changes with SMP. */
enum { END_DEVICE = 1, ATTACHED_PHY = 0, EXPANDER_CHANGES = 0, PHY_CHANGES = 0 };

static uint8_t phys[PHYS * RECORD], permissions[2048];
static const uint8_t no_routes[1];

/* Eight phys, all ready with address known; phy 7 participates, phy 0 has priority 15. */
static void bench_rack(void) {
    static const uint8_t groups[PHYS] = {1, 2, 8, 8, 9, 9, 0, 1};
    for (int i = 0; i < PHYS; i++) {
        uint8_t *record = phys + RECORD * i;
        record[0] = i == 0 ? 15 : i == 7 ? 0x10 : 0;
        record[1] = groups[i];
        record[2] = 3;
        record[4] = 0x50;
        record[11] = (uint8_t)(0x10 + i);
    }
}

static int permitted(int a, int b) {
    return permissions[16 * a + 15 - b / 8] >> (b % 8) & 1;
}

static const uint8_t *address_of(int phy) {
    return phys + RECORD * phy + 4;
}

static void open_address(unsigned from, const uint8_t *address) {
    uint8_t frame[28] = {0x01}, out[28];
    memcpy(frame + 4, address, 8);
    struct shelf_opened opened = shelf_open(phys, sizeof phys, no_routes, 0, permissions, sizeof permissions, from, frame,
                                            sizeof frame, out, sizeof out);
    printf("refusal %u, ", opened.refusal);
    if (opened.outcome == SHELF_FORWARD)
        printf("forward on phy %u, byte 20 is %02X\n", opened.phy, out[20]);
    else
        printf("outcome %u\n", opened.outcome);
}

static void open_to(unsigned from, int to) {
    printf("OPEN from phy %u to phy %d: ", from, to);
    open_address(from, address_of(to));
}

static void switch_on_8_and_9(void) {
    static const uint8_t request[] = {0x40, 0xC1, 0, 2, 0, 0, 0x08, 0x89, 0, 0x81, 0, 0};
    uint8_t response[1020], set[16];
    struct shelf_answered answer =
        shelf_smp(phys, sizeof phys, permissions, sizeof permissions, 0, 0, EXPANDER_CHANGES, PHY_CHANGES, request,
                  sizeof request, response, sizeof response, set, sizeof set);
    printf("SMP from phy 0: refusal %u, result %02X, %u bytes, %u phys told\n", answer.refusal, answer.result,
           answer.length, answer.count);
    if (answer.refusal == 0)
        printf("response %02X %02X %02X %02X, set byte 0 is %02X\n", response[0], response[1], response[2], response[3],
               set[0]);
}

/* DISCOVER of each phy in turn, the ignore bit zero: those that the member's group does not reach are hidden. */
static void list_from(unsigned member) {
    printf("DISCOVER from phy %u:\n", member);
    for (int phy = 0; phy < PHYS; phy++) {
        const uint8_t request[] = {0x40, 0x10, 0, 2, 0, 0, 0, 0, 0, (uint8_t)phy, 0, 0};
        uint8_t response[1020], set[16];
        struct shelf_answered answer =
            shelf_smp(phys, sizeof phys, permissions, sizeof permissions, member, 0, EXPANDER_CHANGES, PHY_CHANGES, request,
                      sizeof request, response, sizeof response, set, sizeof set);
        printf("  phy %d: ", phy);
        if (answer.refusal != 0) {
            printf("refusal %u\n", answer.refusal);
        } else if (answer.result == 0x16) {
            printf("hidden\n");
        } else if (answer.result != 0) {
            printf("result %02X\n", answer.result);
        } else {
            printf("group %u, device type %u, attached ", response[63], response[12] >> 4 & 7);
            for (int i = 24; i < 32; i++) printf("%02X", response[i]);
            printf("\n");
        }
    }
}

/* Every DISCOVER of a phy, there or not, with the ignore bit zero: the answers, and all bytes of response and set. */
struct listing {
    struct shelf_answered answers[256];
    uint8_t responses[256][1020], sets[256][16];
};

static void learn(unsigned member, struct listing *all) {
    memset(all, 0, sizeof *all);
    for (int phy = 0; phy < 256; phy++) {
        const uint8_t request[] = {0x40, 0x10, 0, 2, 0, 0, 0, 0, 0, (uint8_t)phy, 0, 0};
        all->answers[phy] = shelf_smp(phys, sizeof phys, permissions, sizeof permissions, member, 0, EXPANDER_CHANGES,
                                      PHY_CHANGES, request, sizeof request, all->responses[phy], sizeof all->responses[phy],
                                      all->sets[phy], sizeof all->sets[phy]);
    }
}

/* Group 9's disk on phy 4 is swapped for another, which a member on phy 2 may not reach either. An OPEN to the old one tells. */
static void swap_a_hidden_disk(void) {
    static const uint8_t another[8] = {0x50, 0, 0, 0, 0, 0, 0, 0x99};
    static struct listing before, after;
    uint8_t old[8];
    memcpy(old, address_of(4), 8);
    learn(2, &before);
    printf("OPEN from phy 2 to phy 4's disk: ");
    open_address(2, old);
    printf("phy 4 leaves: refusal %u\n", shelf_leaving(phys, sizeof phys, 4));
    printf("IDENTIFY on phy 4 with another address: refusal %u\n",
           shelf_identify(phys, sizeof phys, 4, another, 8, END_DEVICE, ATTACHED_PHY));
    learn(2, &after);
    printf("all DISCOVERs from phy 2: %s\n", memcmp(&before, &after, sizeof before) == 0 ? "the same bytes" : "other bytes");
    printf("OPEN from phy 2 to the disk that left: ");
    open_address(2, old);
}

static void permissions_of_8_and_9(void) {
    printf("permitted: (8,9) %d, (9,8) %d\n", permitted(8, 9), permitted(9, 8));
}

/* Phy 3 comes up again with phy 2's address: the two are one port. */
static void make_sisters(void) {
    uint8_t address[8];
    memcpy(address, address_of(2), 8);
    printf("phy 3 leaves: refusal %u\n", shelf_leaving(phys, sizeof phys, 3));
    printf("IDENTIFY on phy 3 with phy 2's address: refusal %u\n",
           shelf_identify(phys, sizeof phys, 3, address, 8, END_DEVICE, ATTACHED_PHY));
}

static void change_on_0(void) {
    uint8_t set[16], out[28];
    struct shelf_told told = shelf_primitive(phys, sizeof phys, permissions, sizeof permissions, 0, 0, set, sizeof set, out,
                                             sizeof out);
    printf("primitive on phy 0: refusal %u, %u phys told", told.refusal, told.count);
    if (told.refusal == 0)
        printf(", set byte 0 is %02X", set[0]);
    printf("\n");
}

/* A 93h request of no descriptors over a connection on phy 7, which participates. */
static void ask_on_7(unsigned carried) {
    static const uint8_t request[] = {0x40, 0x93, 0, 1, 0, 0, 0, 0};
    uint8_t response[1020], set[16];
    struct shelf_answered answer =
        shelf_smp(phys, sizeof phys, permissions, sizeof permissions, 7, carried, EXPANDER_CHANGES, PHY_CHANGES, request,
                  sizeof request, response, sizeof response, set, sizeof set);
    printf("SMP from phy 7, carried %u: refusal %u", carried, answer.refusal);
    if (answer.refusal == 0)
        printf(", result %02X", answer.result);
    printf("\n");
}

/* A sheet of orders from phy 0, or what is wrong with its first line that fails. */
static void import_from_0(const char *sheet) {
    static const char *const why[] = {"all accepted", "bad text", "no such group", "no right"};
    struct shelf_imported imported = shelf_import(phys, sizeof phys, permissions, sizeof permissions, 0, 0,
                                                  (const uint8_t *)sheet, strlen(sheet));
    printf("import from phy 0: refusal %u, %s %u, %s\n", imported.refusal, imported.cause ? "line" : "lines", imported.lines,
           why[imported.cause]);
}

static void export_all(void) {
    static uint8_t sheet[SHELF_SHEET_MOST];
    struct shelf_exported exported = shelf_export(permissions, sizeof permissions, sheet, sizeof sheet);
    printf("export: refusal %u, %u bytes\n", exported.refusal, exported.length);
    for (uint32_t i = 0; i < exported.length; i++)
        if (sheet[i] != '\r') putchar(sheet[i]);
}

/* Both tables are kept in a file over a power loss: start-up forgets the orders, and the phys come back without their zones. */
static void lose_power(void) {
    static uint8_t file[SHELF_FILE_ROOM];
    struct shelf_saved saved = shelf_save_version_2(phys, sizeof phys, permissions, sizeof permissions, file, sizeof file);
    printf("save, version 2: refusal %u, %u bytes\n", saved.refusal, saved.length);
    for (unsigned i = 0; i < PHYS; i++)
        phys[RECORD * i] = phys[RECORD * i + 1] = 0;
    printf("start-up: refusal %u\n", shelf_start_up(permissions, sizeof permissions));
    open_to(2, 5);
    struct shelf_loaded loaded = shelf_load_version_1(permissions, sizeof permissions, file, saved.length);
    printf("load by the reader of version 1: refusal %u\n", loaded.refusal);
    loaded = shelf_load_version_2(phys, sizeof phys, permissions, sizeof permissions, file, saved.length - 1);
    printf("load of the file cut by a byte: refusal %u\n", loaded.refusal);
    loaded = shelf_load_version_2(phys, sizeof phys, permissions, sizeof permissions, file, saved.length);
    printf("load: refusal %u, version %u\n", loaded.refusal, loaded.version);
    open_to(2, 5);
}

int main(void) {
    const uint8_t byte_20 = 0x81; /* of the connection's OPEN: ACCESS ZONE MANAGEMENT, and group 1 */
    bench_rack();
    printf("start-up: refusal %u\n", shelf_start_up(permissions, sizeof permissions));
    permissions_of_8_and_9();
    open_to(2, 4);
    list_from(2);
    switch_on_8_and_9();
    permissions_of_8_and_9();
    open_to(2, 4);
    list_from(2);
    change_on_0();
    make_sisters();
    change_on_0();
    open_to(3, 2);
    list_from(0);
    ask_on_7(byte_20);
    ask_on_7(byte_20 & 0x7F);
    memset(phys, 0, sizeof phys);
    bench_rack();
    printf("start-up: refusal %u\n", shelf_start_up(permissions, sizeof permissions));
    swap_a_hidden_disk();
    import_from_0("8,9,1\r\n9,8,0\n127,2,1\r\n");
    import_from_0("8,9,1\n09,9,1\n10,10,1\n");
    import_from_0("9,9,1\n1000,9,1\n");
    export_all();
    lose_power();
    return 0;
}
