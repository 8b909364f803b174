/*
 * Oscjardum: a balanced-parentheses tree in lent memory, for C11 on x86-64.
 * Link libflight.a (`rt lib` in crates/flight). See docs/FLIGHT.md and examples/catalogue.c.
 *
 * Every function takes any numbers and any contents: the caller checks nothing first. What the caller answers for is C's own:
 * each pointer has as many elements behind it as the length says (of length 0 nothing is read or written), it is aligned for
 * its type, what a call may write overlaps nothing else of that call, and no other thread touches it meanwhile.
 *
 * THE AREAS are always passed in this order, each a pointer and a length in elements:
 *   words    uint64_t   area 0   the bit string, then each pioneer level
 *   bytes    uint8_t    area 1   counts and offsets of the dictionaries
 *   middles  uint16_t   area 2   their middle entries, two elements each
 *   larges   uint64_t   area 3   their large entries, two elements each
 *   labels   uint32_t   area 4   one label a node
 *   scratch  uint64_t   area 5   follows the others in build, growth and walk; zero after every call
 *
 * THE RECORD of counts is 18 uint64_t that build writes and growth renews; elements past 18 are not touched.
 * What a level does not have is zero.
 *   record[0]         the nodes
 *   record[1 .. 5]    the bits of each of five strings
 *   record[6 .. 9]    the bytes of each of four dictionaries
 *   record[10 .. 13]  their middle entries
 *   record[14 .. 17]  their large entries
 *
 * A NODE is a place in the bit string and an id. The root is place 0, id 0.
 *
 * EVERY FUNCTION RETURNS 0 for an answer or the number of a refusal, and writes exactly the first 4 elements of `out`:
 *   answer    out[0] = 1, then the values that are named below, then zeros;
 *   nothing   0 is returned and out is four zeros: no child, no sibling, no label;
 *   refusal   out[0] = 0, then what the refusal carries, then zeros.
 * OSCJARDUM_SHORT (a record of fewer than 18 elements or an out of fewer than 4) is told before anything else and writes nothing
 * to out or record.
 */
#ifndef OSCJARDUM_H
#define OSCJARDUM_H

#include <stddef.h>
#include <stdint.h>

#ifdef __cplusplus
extern "C" {
#endif

/* The refusals, and what out[1], out[2] tell of each. 11 to 14 are not used here. */
enum {
    OSCJARDUM_ANSWER = 0,
    OSCJARDUM_LENGTHS = 1, /* levels and labels differ in number: 0 */
    OSCJARDUM_MANY = 2,    /* more than OSCJARDUM_NODES_MOST nodes: how many */
    OSCJARDUM_LEVEL = 3,   /* the first level is 0 and each next at most one more than the one before: the first offending place */
    OSCJARDUM_ROOM = 4,    /* an area is shorter than needed: the area (0 to 5; a walk's lists of levels and labels: 10 and 11) */
    OSCJARDUM_FULL = 5,    /* an aligned 256 places all flagged: pioneer level, block */
    OSCJARDUM_DEEP = 6,    /* a fifth pioneer level is needed: 0 */
    OSCJARDUM_PLACE = 7,   /* no such bit, or the id is not the number of opens before the place: the place */
    OSCJARDUM_CLOSE = 8,   /* the place holds a close: the place */
    OSCJARDUM_BROKEN = 9,  /* the record does not fit the areas, or they hold what no build left: 0 */
    OSCJARDUM_TEXT = 10,   /* a bad input line; of the program listwalk alone, no function here tells it */
    OSCJARDUM_SHORT = 15   /* the record has fewer than 18 elements, or out fewer than 4 */
};

#define OSCJARDUM_RECORD 18          /* elements of the record */
#define OSCJARDUM_OUT 4              /* elements of out */
#define OSCJARDUM_NODES_MOST 1048575 /* the most nodes of a list */

/*
 * ELEMENTS TO LEND for a list of n nodes, n at most OSCJARDUM_NODES_MOST: constant expressions where n is one.
 * They are the definitions of crates/meaning/specs/Bounds.antt (wordsFor, bytesFor, middleFor, largeFor). That no accepted
 * list of n nodes needs more is the theorem `enough-room` of crates/meaning/proofs/Bounds.antt. A growth to n nodes needs
 * what a build of n nodes needs. A walk's two lists need n elements each.
 */
#define OSCJARDUM_WORDS_FOR(n) OSCJARDUM_WORDS_UP4(OSCJARDUM_STRING_WORDS(n))
#define OSCJARDUM_BYTES_FOR(n) OSCJARDUM_BYTES_UP4(OSCJARDUM_STRING_WORDS(n))
#define OSCJARDUM_MIDDLES_FOR(n) OSCJARDUM_MIDDLES_UP4(OSCJARDUM_STRING_WORDS(n))
#define OSCJARDUM_LARGES_FOR(n) OSCJARDUM_LARGES_UP4(OSCJARDUM_STRING_WORDS(n))
#define OSCJARDUM_LABELS_FOR(n) ((uint64_t)(n))
#define OSCJARDUM_SCRATCH_FOR(n) (2 * (uint64_t)(n) + 2)

/* The parts of these formulas. A string of b words has 4 b - 6 flags at most, and none where b is 0 or 1 (`bitsAbove`). */
#define OSCJARDUM_WORD_COUNT(bits) (((bits) + 63) / 64)
#define OSCJARDUM_STRING_WORDS(n) OSCJARDUM_WORD_COUNT(2 * (uint64_t)(n) + 2)
#define OSCJARDUM_BITS_ABOVE(b) ((b) < 2 ? 0 : 4 * (b) - 6)
#define OSCJARDUM_WORDS_ABOVE(b) OSCJARDUM_WORD_COUNT(OSCJARDUM_BITS_ABOVE(b))
#define OSCJARDUM_BLOCKS_IN(b) (((b) + 3) / 4)
#define OSCJARDUM_BYTES_OF(b) (OSCJARDUM_BLOCKS_IN(b) + OSCJARDUM_BITS_ABOVE(b))
#define OSCJARDUM_MIDDLES_OF(b) (2 * ((OSCJARDUM_BLOCKS_IN(b) + 7) / 8))
#define OSCJARDUM_LARGES_OF(b) (2 * ((OSCJARDUM_BLOCKS_IN(b) + 255) / 256))

/* Of a string of b words with at most 1, 2, 3 or 4 pioneer levels above it. */
#define OSCJARDUM_WORDS_UP1(b) ((b) + OSCJARDUM_WORDS_ABOVE(b))
#define OSCJARDUM_WORDS_UP2(b) ((b) + OSCJARDUM_WORDS_UP1(OSCJARDUM_WORDS_ABOVE(b)))
#define OSCJARDUM_WORDS_UP3(b) ((b) + OSCJARDUM_WORDS_UP2(OSCJARDUM_WORDS_ABOVE(b)))
#define OSCJARDUM_WORDS_UP4(b) ((b) + OSCJARDUM_WORDS_UP3(OSCJARDUM_WORDS_ABOVE(b)))
#define OSCJARDUM_BYTES_UP1(b) OSCJARDUM_BYTES_OF(b)
#define OSCJARDUM_BYTES_UP2(b) (OSCJARDUM_BYTES_OF(b) + OSCJARDUM_BYTES_UP1(OSCJARDUM_WORDS_ABOVE(b)))
#define OSCJARDUM_BYTES_UP3(b) (OSCJARDUM_BYTES_OF(b) + OSCJARDUM_BYTES_UP2(OSCJARDUM_WORDS_ABOVE(b)))
#define OSCJARDUM_BYTES_UP4(b) (OSCJARDUM_BYTES_OF(b) + OSCJARDUM_BYTES_UP3(OSCJARDUM_WORDS_ABOVE(b)))
#define OSCJARDUM_MIDDLES_UP1(b) OSCJARDUM_MIDDLES_OF(b)
#define OSCJARDUM_MIDDLES_UP2(b) (OSCJARDUM_MIDDLES_OF(b) + OSCJARDUM_MIDDLES_UP1(OSCJARDUM_WORDS_ABOVE(b)))
#define OSCJARDUM_MIDDLES_UP3(b) (OSCJARDUM_MIDDLES_OF(b) + OSCJARDUM_MIDDLES_UP2(OSCJARDUM_WORDS_ABOVE(b)))
#define OSCJARDUM_MIDDLES_UP4(b) (OSCJARDUM_MIDDLES_OF(b) + OSCJARDUM_MIDDLES_UP3(OSCJARDUM_WORDS_ABOVE(b)))
#define OSCJARDUM_LARGES_UP1(b) OSCJARDUM_LARGES_OF(b)
#define OSCJARDUM_LARGES_UP2(b) (OSCJARDUM_LARGES_OF(b) + OSCJARDUM_LARGES_UP1(OSCJARDUM_WORDS_ABOVE(b)))
#define OSCJARDUM_LARGES_UP3(b) (OSCJARDUM_LARGES_OF(b) + OSCJARDUM_LARGES_UP2(OSCJARDUM_WORDS_ABOVE(b)))
#define OSCJARDUM_LARGES_UP4(b) (OSCJARDUM_LARGES_OF(b) + OSCJARDUM_LARGES_UP3(OSCJARDUM_WORDS_ABOVE(b)))

/* The same as functions. */
static inline uint64_t oscjardum_words_for(uint64_t n) { return OSCJARDUM_WORDS_FOR(n); }
static inline uint64_t oscjardum_bytes_for(uint64_t n) { return OSCJARDUM_BYTES_FOR(n); }
static inline uint64_t oscjardum_middles_for(uint64_t n) { return OSCJARDUM_MIDDLES_FOR(n); }
static inline uint64_t oscjardum_larges_for(uint64_t n) { return OSCJARDUM_LARGES_FOR(n); }
static inline uint64_t oscjardum_labels_for(uint64_t n) { return OSCJARDUM_LABELS_FOR(n); }
static inline uint64_t oscjardum_scratch_for(uint64_t n) { return OSCJARDUM_SCRATCH_FOR(n); }

/*
 * Builds the tree of a list of levels and labels (`list_labels`) in the areas. Value: the nodes.
 * Answered: the record and the areas are those of the list; unused elements of the areas are zero.
 * Refused: 1 to 6, or SHORT. All six areas are zero, and so are the 18 elements of the record (unless SHORT).
 */
uint64_t oscjardum_build(const uint32_t *levels, size_t levels_len,
                         const uint32_t *list_labels, size_t list_labels_len,
                         uint64_t *words, size_t words_len,
                         uint8_t *bytes, size_t bytes_len,
                         uint16_t *middles, size_t middles_len,
                         uint64_t *larges, size_t larges_len,
                         uint32_t *labels, size_t labels_len,
                         uint64_t *scratch, size_t scratch_len,
                         uint64_t *record, size_t record_len,
                         uint64_t *out, size_t out_len);

/*
 * Grows the tree by one node of this level and label, at the list's end. Value: the new number of nodes.
 * Answered: the record, and areas 0 to 3 to their ends, are those of the longer list; in area 4 only the new label is written.
 * Refused: 2 to 6, 9, or SHORT. The record and areas 0 to 4 are as they stood.
 */
uint64_t oscjardum_grow(uint64_t *words, size_t words_len,
                        uint8_t *bytes, size_t bytes_len,
                        uint16_t *middles, size_t middles_len,
                        uint64_t *larges, size_t larges_len,
                        uint32_t *labels, size_t labels_len,
                        uint64_t *scratch, size_t scratch_len,
                        uint64_t *record, size_t record_len,
                        uint32_t level, uint32_t label,
                        uint64_t *out, size_t out_len);

/* The root. Values: place 0, id 0. Refused: SHORT. */
uint64_t oscjardum_root(uint64_t *out, size_t out_len);

/* The first child of a node, or nothing. Values: its place, id and label. Refused: 7, 8, 9, SHORT. */
uint64_t oscjardum_first_child(const uint64_t *words, size_t words_len,
                               const uint8_t *bytes, size_t bytes_len,
                               const uint16_t *middles, size_t middles_len,
                               const uint64_t *larges, size_t larges_len,
                               const uint32_t *labels, size_t labels_len,
                               const uint64_t *record, size_t record_len,
                               uint64_t place, uint64_t id,
                               uint64_t *out, size_t out_len);

/* The next sibling of a node, or nothing. Values: its place, id and label. Refused: 7, 8, 9, SHORT. */
uint64_t oscjardum_next_sibling(const uint64_t *words, size_t words_len,
                                const uint8_t *bytes, size_t bytes_len,
                                const uint16_t *middles, size_t middles_len,
                                const uint64_t *larges, size_t larges_len,
                                const uint32_t *labels, size_t labels_len,
                                const uint64_t *record, size_t record_len,
                                uint64_t place, uint64_t id,
                                uint64_t *out, size_t out_len);

/* The label of a node; of the root, nothing. Value: the label. Refused: 7, 8, 9, SHORT. */
uint64_t oscjardum_label(const uint64_t *words, size_t words_len,
                         const uint8_t *bytes, size_t bytes_len,
                         const uint16_t *middles, size_t middles_len,
                         const uint64_t *larges, size_t larges_len,
                         const uint32_t *labels, size_t labels_len,
                         const uint64_t *record, size_t record_len,
                         uint64_t place, uint64_t id,
                         uint64_t *out, size_t out_len);

/* The nodes without children strictly below a node. Value: how many. Refused: 7, 8, 9, SHORT. */
uint64_t oscjardum_leaf_count(const uint64_t *words, size_t words_len,
                              const uint8_t *bytes, size_t bytes_len,
                              const uint16_t *middles, size_t middles_len,
                              const uint64_t *larges, size_t larges_len,
                              const uint32_t *labels, size_t labels_len,
                              const uint64_t *record, size_t record_len,
                              uint64_t place, uint64_t id,
                              uint64_t *out, size_t out_len);

/* The byte size of all that the record counts. Value: the size. Refused: 9, SHORT. */
uint64_t oscjardum_byte_size(const uint64_t *words, size_t words_len,
                             const uint8_t *bytes, size_t bytes_len,
                             const uint16_t *middles, size_t middles_len,
                             const uint64_t *larges, size_t larges_len,
                             const uint32_t *labels, size_t labels_len,
                             const uint64_t *record, size_t record_len,
                             uint64_t *out, size_t out_len);

/* The number of nodes, the root not counted. Value: the number. Refused: 9, SHORT. */
uint64_t oscjardum_nodes(const uint64_t *words, size_t words_len,
                         const uint8_t *bytes, size_t bytes_len,
                         const uint16_t *middles, size_t middles_len,
                         const uint64_t *larges, size_t larges_len,
                         const uint32_t *labels, size_t labels_len,
                         const uint64_t *record, size_t record_len,
                         uint64_t *out, size_t out_len);

/* Whether there is no node. Value: 1 or 0. Refused: 9, SHORT. */
uint64_t oscjardum_is_empty(const uint64_t *words, size_t words_len,
                            const uint8_t *bytes, size_t bytes_len,
                            const uint16_t *middles, size_t middles_len,
                            const uint64_t *larges, size_t larges_len,
                            const uint32_t *labels, size_t labels_len,
                            const uint64_t *record, size_t record_len,
                            uint64_t *out, size_t out_len);

/* The close of the open at a place of the bit string. Value: the place of the close. Refused: 7, 8, 9, SHORT. */
uint64_t oscjardum_close(const uint64_t *words, size_t words_len,
                         const uint8_t *bytes, size_t bytes_len,
                         const uint16_t *middles, size_t middles_len,
                         const uint64_t *larges, size_t larges_len,
                         const uint32_t *labels, size_t labels_len,
                         const uint64_t *record, size_t record_len,
                         uint64_t place,
                         uint64_t *out, size_t out_len);

/* The bit at a place of the bit string. Value: 1 for an open, 0 for a close. Refused: 7, 9, SHORT. */
uint64_t oscjardum_bit(const uint64_t *words, size_t words_len,
                       const uint8_t *bytes, size_t bytes_len,
                       const uint16_t *middles, size_t middles_len,
                       const uint64_t *larges, size_t larges_len,
                       const uint32_t *labels, size_t labels_len,
                       const uint64_t *record, size_t record_len,
                       uint64_t place,
                       uint64_t *out, size_t out_len);

/*
 * Walks the tree: the levels and labels of all nodes, in id order, into two lent lists, zeros behind them. Value: the nodes.
 * Refused: 4, 7, 8, 9, SHORT. Both lists are zeros.
 */
uint64_t oscjardum_walk(const uint64_t *words, size_t words_len,
                        const uint8_t *bytes, size_t bytes_len,
                        const uint16_t *middles, size_t middles_len,
                        const uint64_t *larges, size_t larges_len,
                        const uint32_t *labels, size_t labels_len,
                        uint64_t *scratch, size_t scratch_len,
                        const uint64_t *record, size_t record_len,
                        uint32_t *out_levels, size_t out_levels_len,
                        uint32_t *out_labels, size_t out_labels_len,
                        uint64_t *out, size_t out_len);

#ifdef __cplusplus
}
#endif

#endif
