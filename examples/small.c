/* The small shelf through small.h: what its eight bytes say, an order that they can hold and one that they cannot, and groups
 * above 7, which reach group 1 alone. The output is in small.txt. */
#include <small.h>

#include <stdio.h>
#include <string.h>

enum { PHYS = 8, RECORD = 16, ROW = 16 };

static uint8_t phys[PHYS * RECORD], permissions[8];
static const uint8_t no_routes[1];

/* Eight phys, all ready with address known, of the groups 1, 2, 3, 8, 8, 9, 0 and 1. */
static void rack(void) {
    static const uint8_t groups[PHYS] = {1, 2, 3, 8, 8, 9, 0, 1};
    for (int i = 0; i < PHYS; i++) {
        uint8_t *record = phys + RECORD * i;
        record[1] = groups[i];
        record[2] = 3;
        record[4] = 0x50;
        record[11] = (uint8_t)(0x10 + i);
    }
}

static void print_bytes(const char *what, const uint8_t *bytes, size_t length) {
    printf("%s:", what);
    for (size_t i = 0; i < length; i++) printf(" %02X", bytes[i]);
    printf("\n");
}

static void open_to(unsigned from, int to) {
    uint8_t frame[28] = {0x01}, out[28];
    memcpy(frame + 4, phys + RECORD * to + 4, 8);
    struct small_opened opened = small_open(phys, sizeof phys, no_routes, 0, permissions, sizeof permissions, from, frame,
                                            sizeof frame, out, sizeof out);
    printf("OPEN from phy %u (group %u) to phy %d (group %u): ", from, phys[RECORD * from + 1], to, phys[RECORD * to + 1]);
    if (opened.outcome == SMALL_FORWARD)
        printf("forward\n");
    else
        printf("outcome %u\n", opened.outcome);
}

/* C1h, from phy 0: groups a and b on. */
static void switch_on(uint8_t a, uint8_t b) {
    const uint8_t request[] = {0x40, 0xC1, 0, 2, 0, 0, a, (uint8_t)(0x80 | b), 0, 0x80, 0, 0};
    uint8_t response[1020], set[16];
    struct small_answered answer = small_smp(phys, sizeof phys, permissions, sizeof permissions, 0, 0, 0, 0, request,
                                             sizeof request, response, sizeof response, set, sizeof set);
    printf("order for %u and %u: refusal %u, result %02X\n", a, b, answer.refusal, answer.result);
}

/* 51h, from phy 0: two rows of document 01's sixteen bytes. */
static void report_from(uint8_t row) {
    const uint8_t request[] = {0x40, 0x51, 0, 1, 0, 0, row, 2};
    uint8_t response[1020], set[16];
    struct small_answered answer = small_smp(phys, sizeof phys, permissions, sizeof permissions, 0, 0, 0, 0, request,
                                             sizeof request, response, sizeof response, set, sizeof set);
    printf("report from %u: refusal %u, result %02X, %u bytes\n", row, answer.refusal, answer.result, answer.length);
    if (answer.refusal == 0 && answer.result == 0) {
        print_bytes("  row", response + 12, ROW);
        print_bytes("  row", response + 12 + ROW, ROW);
    }
}

static void change_on(unsigned phy) {
    uint8_t set[16], out[28];
    struct small_told told = small_primitive(phys, sizeof phys, permissions, sizeof permissions, phy, 0, set, sizeof set, out,
                                             sizeof out);
    printf("primitive on phy %u (group %u): refusal %u, %u phys told", phy, phys[RECORD * phy + 1], told.refusal, told.count);
    if (told.refusal == 0) printf(", set byte 0 is %02X", set[0]);
    printf("\n");
}

/* A sheet of orders from phy 0. */
static void import_from_0(const char *sheet) {
    struct small_imported imported = small_import(phys, sizeof phys, permissions, sizeof permissions, 0, 0,
                                                  (const uint8_t *)sheet, strlen(sheet));
    printf("import from phy 0: refusal %u, lines %u, cause %u\n", imported.refusal, imported.lines, imported.cause);
}

static void export_all(void) {
    static uint8_t sheet[SMALL_SHEET_MOST];
    struct small_exported exported = small_export(permissions, sizeof permissions, sheet, sizeof sheet);
    printf("export: refusal %u, %u bytes\n", exported.refusal, exported.length);
    for (uint32_t i = 0; i < exported.length; i++)
        if (sheet[i] != '\r') putchar(sheet[i]);
}

/* The permission table in a file and back, and a file of the large shelf, whose groups this table does not hold. */
static void save_and_load(void) {
    static const uint8_t large[] = {8, 9, 0, 1, 0, 1, 0, 0, 0, 0, 0, 0, 0, 14};
    static uint8_t file[SMALL_FILE_ROOM];
    struct small_saved saved = small_save_version_1(permissions, sizeof permissions, file, sizeof file);
    printf("save, version 1: refusal %u\n", saved.refusal);
    print_bytes("  file", file, saved.length);
    printf("start-up: refusal %u\n", small_start_up(permissions, sizeof permissions));
    struct small_loaded loaded = small_load_version_1(permissions, sizeof permissions, large, sizeof large);
    printf("load of groups 8 and 9: refusal %u\n", loaded.refusal);
    loaded = small_load_version_1(permissions, sizeof permissions, file, saved.length);
    printf("load: refusal %u, version %u\n", loaded.refusal, loaded.version);
    print_bytes("permissions", permissions, sizeof permissions);
}

int main(void) {
    static uint8_t large[2048];
    rack();
    printf("start-up of 2,048 bytes: refusal %u\n", small_start_up(large, sizeof large));
    printf("start-up of 8 bytes: refusal %u\n", small_start_up(permissions, sizeof permissions));
    print_bytes("permissions", permissions, sizeof permissions);
    open_to(1, 2);
    switch_on(2, 3);
    switch_on(2, 8);
    print_bytes("permissions", permissions, sizeof permissions);
    open_to(1, 2);
    open_to(1, 3);
    open_to(3, 5);
    open_to(3, 0);
    open_to(0, 5);
    change_on(3);
    report_from(1);
    report_from(7);
    import_from_0("7,7,1\r\n2,3,0\r\n3,4,1\r\n");
    import_from_0("4,5,1\n7,8,1\n");
    export_all();
    save_and_load();
    return 0;
}
