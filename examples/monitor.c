/* The shape of a monitor's trap handler over Berduzhika. A real one gets each trap from the processor; this one reads them as text
 * from standard input, a line each, and writes what it answers:
 *
 *     read SIDE ADDRESS SIZE          write SIDE ADDRESS SIZE VALUE      SIDE s or ns, ADDRESS and VALUE in hex
 *     wire INTID LEVEL                activate SIDE INTID                deactivate SIDE INTID                reset
 *
 * Lines that begin with # and empty lines are passed over.
 * Build: cc -Iinclude examples/monitor.c crates/berduzhika/out/libberduzhika.a */
#include "berduzhika.h"
#include <stdio.h>
#include <string.h>

/* Where this box has its controller. The page after the Distributor's is trapped with it, and holds nothing that is listed. */
#define DIST_BASE 0x08000000u
#define DIST_SIZE 0x20000u
#define SGI_BASE 0x080B0000u
#define SGI_SIZE 0x10000u

/* The monitor owns the tables; nothing else writes them. The shape is what the box was built with: lines, espi, eppi, mbis. */
static uint8_t dist[BERDUZHIKA_DIST];
static uint8_t redist[BERDUZHIKA_REDIST];
static uint32_t dist_presence[BERDUZHIKA_DIST_PRESENCE];
static uint32_t redist_presence[BERDUZHIKA_REDIST_PRESENCE];
#define BOX                                                                                              \
    dist, BERDUZHIKA_DIST, redist, BERDUZHIKA_REDIST, dist_presence, BERDUZHIKA_DIST_PRESENCE,           \
        redist_presence, BERDUZHIKA_REDIST_PRESENCE, 9, 4, 1, 1

/* What the processor tells of a trapped access. */
struct trap {
    uint64_t address;
    uint32_t size; /* in bytes */
    uint32_t way;
    uint32_t side;
    uint64_t reg; /* the register that is stored, or loaded */
};

/* The frame that holds the address and the offset in it, or 0: an address of something else. */
static uint32_t frame_of(uint64_t address, uint32_t *offset) {
    if (address >= DIST_BASE && address - DIST_BASE < DIST_SIZE) {
        *offset = (uint32_t)(address - DIST_BASE);
        return BERDUZHIKA_FRAME_DIST;
    }
    if (address >= SGI_BASE && address - SGI_BASE < SGI_SIZE) {
        *offset = (uint32_t)(address - SGI_BASE);
        return BERDUZHIKA_FRAME_REDIST;
    }
    return 0;
}

/* The handler: 0 where the access is done, and what was read is in the register; else NOT_OURS, or the library's refusal. A real
 * monitor goes on after the access where it is done, and gives the side an abort where it is refused. */
#define NOT_OURS 1000u
static uint32_t handle(struct trap *t) {
    uint32_t offset;
    uint32_t frame = frame_of(t->address, &offset);
    if (frame == 0)
        return NOT_OURS;
    /* A store of at most 4 bytes carries the low half of its register; one of 8 is refused by its width. */
    uint64_t answer = berduzhika_access(BOX, frame, t->side, t->way, t->size, offset, (uint32_t)(t->reg & 0xffffffffu));
    if (berduzhika_status(answer) == BERDUZHIKA_DONE && t->way == BERDUZHIKA_READ)
        t->reg = berduzhika_value(answer);
    return berduzhika_status(answer);
}

/* From here on: the traps as text. */
static void report(uint32_t status, uint64_t value) {
    if (status == NOT_OURS)
        printf("not ours\n");
    else if (status != BERDUZHIKA_DONE)
        printf("refused %u\n", (unsigned)status);
    else
        printf("done 0x%llx\n", (unsigned long long)value);
}

static void report_event(uint64_t answer) { report(berduzhika_status(answer), berduzhika_value(answer)); }

/* A word that is no side is 0, which the library refuses. */
static uint32_t side_of(const char *word) {
    if (strcmp(word, "s") == 0)
        return BERDUZHIKA_SIDE_SECURE;
    return strcmp(word, "ns") == 0 ? BERDUZHIKA_SIDE_NON_SECURE : 0;
}

static int access_line(const char *line) {
    char op[8], side[8];
    unsigned long long address, value = 0;
    unsigned size;
    int words = sscanf(line, "%7s %7s %llx %u %llx", op, side, &address, &size, &value);
    int write = strcmp(op, "write") == 0;
    if (words != (write ? 5 : 4) || (!write && strcmp(op, "read") != 0))
        return 0;
    struct trap t = {address, size, write ? BERDUZHIKA_WRITE : BERDUZHIKA_READ, side_of(side), value};
    uint32_t status = handle(&t);
    report(status, write ? 0 : t.reg);
    return 1;
}

static int event_line(const char *line) {
    char side[8];
    unsigned intid, level;
    if (sscanf(line, "wire %u %u", &intid, &level) == 2)
        report_event(berduzhika_wire(BOX, intid, level));
    else if (sscanf(line, "activate %7s %u", side, &intid) == 2)
        report_event(berduzhika_activate(BOX, side_of(side), intid));
    else if (sscanf(line, "deactivate %7s %u", side, &intid) == 2)
        report_event(berduzhika_deactivate(BOX, side_of(side), intid));
    else if (strcmp(line, "reset\n") == 0)
        report_event(berduzhika_reset(BOX));
    else
        return 0;
    return 1;
}

int main(void) {
    char line[128];
    memset(dist_presence, 0xff, sizeof dist_presence);
    memset(redist_presence, 0xff, sizeof redist_presence);
    while (fgets(line, sizeof line, stdin) != NULL) {
        if (line[0] == '#' || line[0] == '\n')
            continue;
        if (!access_line(line) && !event_line(line)) {
            printf("bad line: %s", line);
            return 1;
        }
    }
    return 0;
}
