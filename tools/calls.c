/* Calls of the exported library with no text around them, for measuring (docs/PERFORMANCE.md): calls CASE COUNT.
 *
 * The bench shape, all interrupts present; the SPIs Non-secure and edge, every third one pending. The Non-secure side accesses
 * ISPENDR word 9 (INTIDs 288 to 319), COUNT times in the way that CASE says. Which bits are written goes round the word. It prints a
 * digest of every answer and, at the end, of the word's records: model/src/bin/calls.rs has to print the same. Exit status 2 where
 * its words are none of these. */
#include <inttypes.h>
#include <stdio.h>
#include <stdlib.h>
#include <string.h>

#include "berduzhika.h"

static uint8_t dist[BERDUZHIKA_DIST], redist[BERDUZHIKA_REDIST];
static uint32_t dist_presence[BERDUZHIKA_DIST_PRESENCE], redist_presence[BERDUZHIKA_REDIST_PRESENCE];

/* Both unlisted words are refused 5: one past the register map of the first 4 KiB, one by an entry of it. */
enum { ISPENDR_9 = 0x224, PAST_MAP = 0xFFFC, IN_MAP = 0x000, FIRST = 288 - 32, RECORDS = 32 };

/* A case: the access. Call i writes the value turned left by i % 32 bits. */
struct call {
    const char *name;
    uint32_t way, offset, value;
};

static const struct call calls[] = {
    {"past", BERDUZHIKA_WRITE, PAST_MAP, 1},
    {"unlisted", BERDUZHIKA_WRITE, IN_MAP, 1},
    {"read", BERDUZHIKA_READ, ISPENDR_9, 0},
    {"none", BERDUZHIKA_WRITE, ISPENDR_9, 0},
    {"one", BERDUZHIKA_WRITE, ISPENDR_9, 1},
    {"two", BERDUZHIKA_WRITE, ISPENDR_9, 0x21},
    {"all", BERDUZHIKA_WRITE, ISPENDR_9, 0xFFFFFFFF},
};

static const struct call *named(const char *name) {
    for (size_t i = 0; i < sizeof calls / sizeof calls[0]; i++)
        if (strcmp(calls[i].name, name) == 0)
            return &calls[i];
    return NULL;
}

static uint32_t turned(uint32_t value, uint32_t by) { return by == 0 ? value : value << by | value >> (32 - by); }

static uint64_t digest(uint64_t d, uint64_t seen) { return (d ^ seen) * UINT64_C(0x100000001B3); }

int main(int argc, char **argv) {
    const struct call *call = argc == 3 ? named(argv[1]) : NULL;
    unsigned long count = argc == 3 ? strtoul(argv[2], NULL, 10) : 0;
    uint64_t d = 0;

    if (call == NULL || count == 0) {
        fprintf(stderr, "usage: calls past|unlisted|read|none|one|two|all COUNT\n");
        return 2;
    }
    for (size_t k = 0; k < sizeof dist; k++)
        dist[k] = k % 3 == 0 ? 0x62 : 0x60;
    memset(dist_presence, 0xFF, sizeof dist_presence);
    memset(redist_presence, 0xFF, sizeof redist_presence);
    for (unsigned long i = 0; i < count; i++)
        d = digest(d, berduzhika_access(dist, sizeof dist, redist, sizeof redist, dist_presence, BERDUZHIKA_DIST_PRESENCE,
                                        redist_presence, BERDUZHIKA_REDIST_PRESENCE, 9, 4, 1, 1, BERDUZHIKA_FRAME_DIST,
                                        BERDUZHIKA_SIDE_NON_SECURE, call->way, 4, call->offset, turned(call->value, i % 32)));
    for (size_t k = FIRST; k < FIRST + RECORDS; k++)
        d = digest(d, dist[k]);
    printf("%016" PRIx64 "\n", d);
    return 0;
}
