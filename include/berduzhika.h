/* Berduzhika: what a monitor answers when it traps accesses to Arm's GICv3 interrupt controller.
 *
 * Link with libberduzhika.a (x86-64). docs/LINKING.md says how; document 01 says what each step does.
 *
 * What is lent. Every function takes four tables, each a pointer and a length in elements, and the shape. They stay the caller's:
 * the library keeps no pointer and no memory of its own, allocates nothing, and a function touches its tables only while it runs.
 *
 *     dist             2012 bytes     Distributor records           read and written
 *     redist             96 bytes     Redistributor records         read and written
 *     dist_presence      63 words     which SPIs exist              only read
 *     redist_presence     3 words     which SGIs and PPIs exist     only read
 *     lines espi eppi mbis            the shape: 0 to 31, 0 to 32, 0 to 2, and 0 or 1
 *
 * A record is a byte, by value: 1 enabled, 2 latch, 4 wire, 8 message level, 16 active, 32 edge, 64 group, 128 modifier. Every byte has
 * a meaning. An interrupt is Non-secure exactly when its group bit is 1, whatever its modifier bit; otherwise it is Secure.
 *
 * The caller owes what C cannot check: no pointer is null, each has as many elements behind it as its length says, and no two tables
 * overlap. Everything else is answered: no number and no length is off limits, and any bad one is refused. Two calls may run at the
 * same time where they share no table that is written.
 *
 * What is answered. One number of 64 bits: berduzhika_status takes out 0 (done) or the refusal, berduzhika_value the value that was
 * read (0 for a write, an event and every refusal). A refusal leaves every lent byte as it was. */
#ifndef BERDUZHIKA_H
#define BERDUZHIKA_H

#include <stddef.h>
#include <stdint.h>

#ifdef __cplusplus
extern "C" {
#endif

/* The lengths of the tables, in elements. */
#define BERDUZHIKA_DIST 2012
#define BERDUZHIKA_REDIST 96
#define BERDUZHIKA_DIST_PRESENCE 63
#define BERDUZHIKA_REDIST_PRESENCE 3

/* frame: which frame the offset counts from. 0 names none. */
#define BERDUZHIKA_FRAME_DIST 1u   /* the Distributor, from Dist_base */
#define BERDUZHIKA_FRAME_REDIST 2u /* the Redistributor, from SGI_base */

/* side: the Security state that asks. 0, the number that was forgotten, is neither. */
#define BERDUZHIKA_SIDE_NON_SECURE 1u
#define BERDUZHIKA_SIDE_SECURE 2u

/* way: the direction of an access. 0 is neither. */
#define BERDUZHIKA_READ 1u
#define BERDUZHIKA_WRITE 2u

/* The status of an answer: 0, document 01's refusals 1 to 9, and one for a number that names nothing. */
enum {
    BERDUZHIKA_DONE = 0,
    BERDUZHIKA_REFUSED_SHAPE = 1,     /* a table's length or a number of the shape is off its limit */
    BERDUZHIKA_REFUSED_WIDTH = 2,     /* width is not 2 or 4 */
    BERDUZHIKA_REFUSED_ALIGNMENT = 3, /* offset is not a multiple of width */
    BERDUZHIKA_REFUSED_OFFSET = 4,    /* offset above 65535 */
    BERDUZHIKA_REFUSED_UNLISTED = 5,  /* no listed register holds the offset */
    BERDUZHIKA_REFUSED_NARROW = 6,    /* width 2, and not a message register */
    BERDUZHIKA_REFUSED_INTID = 7,     /* event: INTID not implemented, or Secure and named by the Non-secure side */
    BERDUZHIKA_REFUSED_SGI_WIRE = 8,  /* wire event on an SGI */
    BERDUZHIKA_REFUSED_STATE = 9,     /* activate: not enabled, not pending or active; deactivate: not active */
    BERDUZHIKA_REFUSED_NAMELESS = 100  /* frame, side, way or level is none of its numbers; tried before all others */
};

static inline uint32_t berduzhika_status(uint64_t answer) { return (uint32_t)(answer >> 32); }

static inline uint32_t berduzhika_value(uint64_t answer) { return (uint32_t)(answer & 0xffffffffu); }

/* A trapped read or write of `width` bytes at `offset` of a frame, by a side. A read ignores `value` and answers what was read; a
 * write of width 2 ignores the upper half of `value`. Refusals 100, 1, 2 to 6, the first that applies. */
uint64_t berduzhika_access(uint8_t *dist, size_t dist_len,
                           uint8_t *redist, size_t redist_len,
                           const uint32_t *dist_presence, size_t dist_presence_len,
                           const uint32_t *redist_presence, size_t redist_presence_len,
                           uint32_t lines, uint32_t espi, uint32_t eppi, uint32_t mbis,
                           uint32_t frame, uint32_t side, uint32_t way,
                           uint32_t width, uint32_t offset, uint32_t value);

/* The wire of interrupt `intid` goes to `level`, 0 or 1. It has no side. Refusals 100, 1, 7, 8. */
uint64_t berduzhika_wire(uint8_t *dist, size_t dist_len,
                         uint8_t *redist, size_t redist_len,
                         const uint32_t *dist_presence, size_t dist_presence_len,
                         const uint32_t *redist_presence, size_t redist_presence_len,
                         uint32_t lines, uint32_t espi, uint32_t eppi, uint32_t mbis,
                         uint32_t intid, uint32_t level);

/* A side takes interrupt `intid`: active, its latch cleared. Refusals 100, 1, 7, 9. */
uint64_t berduzhika_activate(uint8_t *dist, size_t dist_len,
                             uint8_t *redist, size_t redist_len,
                             const uint32_t *dist_presence, size_t dist_presence_len,
                             const uint32_t *redist_presence, size_t redist_presence_len,
                             uint32_t lines, uint32_t espi, uint32_t eppi, uint32_t mbis,
                             uint32_t side, uint32_t intid);

/* A side is done with interrupt `intid`: active no more. Refusals 100, 1, 7, 9. */
uint64_t berduzhika_deactivate(uint8_t *dist, size_t dist_len,
                               uint8_t *redist, size_t redist_len,
                               const uint32_t *dist_presence, size_t dist_presence_len,
                               const uint32_t *redist_presence, size_t redist_presence_len,
                               uint32_t lines, uint32_t espi, uint32_t eppi, uint32_t mbis,
                               uint32_t side, uint32_t intid);

/* Every record byte becomes 0; presence stays. Refused only by 1. */
uint64_t berduzhika_reset(uint8_t *dist, size_t dist_len,
                          uint8_t *redist, size_t redist_len,
                          const uint32_t *dist_presence, size_t dist_presence_len,
                          const uint32_t *redist_presence, size_t redist_presence_len,
                          uint32_t lines, uint32_t espi, uint32_t eppi, uint32_t mbis);

#ifdef __cplusplus
}
#endif

#endif
