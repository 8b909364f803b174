/*
 * A catalogue of four nodes, built, asked, grown by a node, and refused: every function of oscjardum.h is called.
 * It prints the listing before and after in the form of the program listwalk, and each other call as a tab-parted line:
 * what was asked, the number returned, the four numbers of out. examples/catalogue.expected has what 01 and the recorded
 * Rust (testdata/trees.txt) say; tools/c-example compares.
 */
#include <inttypes.h>
#include <stdio.h>
#include <string.h>

#include "oscjardum.h"

#define MOST 8 /* nodes that the areas suffice for */
#define LENGTH(a) (sizeof(a) / sizeof((a)[0]))
#define LENT(a) (a), LENGTH(a)

static uint64_t words[OSCJARDUM_WORDS_FOR(MOST)];
static uint8_t bytes[OSCJARDUM_BYTES_FOR(MOST)];
static uint16_t middles[OSCJARDUM_MIDDLES_FOR(MOST)];
static uint64_t larges[OSCJARDUM_LARGES_FOR(MOST)];
static uint32_t labels[OSCJARDUM_LABELS_FOR(MOST)];
static uint64_t scratch[OSCJARDUM_SCRATCH_FOR(MOST)];
static uint64_t record[OSCJARDUM_RECORD];
static uint64_t out[OSCJARDUM_OUT];

#define AREAS LENT(words), LENT(bytes), LENT(middles), LENT(larges), LENT(labels)

static void tell(const char *asked, uint64_t returned) {
    printf("%s\t%" PRIu64 "\t%" PRIu64 "\t%" PRIu64 "\t%" PRIu64 "\t%" PRIu64 "\n", asked, returned, out[0], out[1], out[2], out[3]);
}

/* The lines of all nodes below a node: id, level, label, parent, next sibling. */
static void list_below(uint64_t place, uint64_t id, unsigned level) {
    uint64_t parent = id;
    uint64_t returned = oscjardum_first_child(AREAS, LENT(record), place, id, LENT(out));
    while (returned == OSCJARDUM_ANSWER && out[0] == 1) {
        uint64_t child = out[1], child_id = out[2], label = out[3];
        printf("%" PRIu64 "\t%u\t%" PRIu64 "\t%" PRIu64, child_id, level, label, parent);
        returned = oscjardum_next_sibling(AREAS, LENT(record), child, child_id, LENT(out));
        if (returned == OSCJARDUM_ANSWER && out[0] == 1)
            printf("\t%" PRIu64 "\n", out[2]);
        else
            printf("\t-\n");
        list_below(child, child_id, level + 1);
        returned = oscjardum_next_sibling(AREAS, LENT(record), child, child_id, LENT(out));
    }
    if (returned != OSCJARDUM_ANSWER)
        printf("refused\t%" PRIu64 "\t%" PRIu64 "\n", returned, out[1]);
}

static void list(void) {
    uint64_t nodes, size;
    oscjardum_nodes(AREAS, LENT(record), LENT(out));
    nodes = out[1];
    oscjardum_byte_size(AREAS, LENT(record), LENT(out));
    size = out[1];
    printf("tree\t%" PRIu64 "\t%" PRIu64 "\t%" PRIu64 "\n", nodes, record[1], size);
    oscjardum_root(LENT(out));
    list_below(out[1], out[2], 0);
}

static void ask(void) {
    tell("root", oscjardum_root(LENT(out)));
    tell("first child of 0", oscjardum_first_child(AREAS, LENT(record), 0, 0, LENT(out)));
    tell("first child of 2", oscjardum_first_child(AREAS, LENT(record), 2, 2, LENT(out)));
    tell("next sibling of 1", oscjardum_next_sibling(AREAS, LENT(record), 1, 1, LENT(out)));
    tell("next sibling of 2", oscjardum_next_sibling(AREAS, LENT(record), 2, 2, LENT(out)));
    tell("next sibling of 4", oscjardum_next_sibling(AREAS, LENT(record), 7, 4, LENT(out)));
    tell("label of 3", oscjardum_label(AREAS, LENT(record), 4, 3, LENT(out)));
    tell("label of 0", oscjardum_label(AREAS, LENT(record), 0, 0, LENT(out)));
    tell("leaves below 0", oscjardum_leaf_count(AREAS, LENT(record), 0, 0, LENT(out)));
    tell("leaves below 1", oscjardum_leaf_count(AREAS, LENT(record), 1, 1, LENT(out)));
    tell("byte size", oscjardum_byte_size(AREAS, LENT(record), LENT(out)));
    tell("nodes", oscjardum_nodes(AREAS, LENT(record), LENT(out)));
    tell("is empty", oscjardum_is_empty(AREAS, LENT(record), LENT(out)));
    tell("close of 1", oscjardum_close(AREAS, LENT(record), 1, LENT(out)));
    tell("bit 2", oscjardum_bit(AREAS, LENT(record), 2, LENT(out)));
    tell("bit 3", oscjardum_bit(AREAS, LENT(record), 3, LENT(out)));
}

static void ask_badly(void) {
    uint64_t few[3] = {7, 7, 7}, returned;
    tell("first child of a wrong id", oscjardum_first_child(AREAS, LENT(record), 1, 2, LENT(out)));
    tell("next sibling at a close", oscjardum_next_sibling(AREAS, LENT(record), 3, 3, LENT(out)));
    tell("close of a close", oscjardum_close(AREAS, LENT(record), 3, LENT(out)));
    tell("close past the end", oscjardum_close(AREAS, LENT(record), 10, LENT(out)));
    tell("bit past the end", oscjardum_bit(AREAS, LENT(record), 10, LENT(out)));
    tell("nodes without their labels", oscjardum_nodes(LENT(words), LENT(bytes), LENT(middles), LENT(larges), labels, 3, LENT(record), LENT(out)));
    out[0] = out[1] = out[2] = out[3] = 7;
    tell("nodes by a short record", oscjardum_nodes(AREAS, record, 17, LENT(out)));
    returned = oscjardum_root(few, 3);
    printf("root into a short out\t%" PRIu64 "\t%" PRIu64 "\n", returned, few[0]);
}

static void walk(void) {
    uint32_t levels[MOST], names[MOST];
    uint64_t k;
    tell("walk", oscjardum_walk(AREAS, LENT(scratch), LENT(record), LENT(levels), LENT(names), LENT(out)));
    for (k = 0; k < record[0]; k++)
        printf("%" PRIu32 "\t%" PRIu32 "\n", levels[k], names[k]);
    tell("walk into a short list", oscjardum_walk(AREAS, LENT(scratch), LENT(record), levels, 3, LENT(names), LENT(out)));
}

/* Whether an area is zero to its end. */
static int zero(const void *area, size_t size) {
    const unsigned char *p = area;
    size_t k;
    for (k = 0; k < size; k++)
        if (p[k] != 0)
            return 0;
    return 1;
}

static void build_badly(void) {
    static const uint32_t deep[1] = {1}, jump[2] = {0, 2}, flat[4] = {0, 0, 0, 0}, names[4] = {1, 2, 3, 4};
    tell("build of level 1", oscjardum_build(deep, 1, names, 1, AREAS, LENT(scratch), LENT(record), LENT(out)));
    tell("build of levels 0 2", oscjardum_build(jump, 2, names, 2, AREAS, LENT(scratch), LENT(record), LENT(out)));
    tell("build of 4 levels, 3 labels", oscjardum_build(flat, 4, names, 3, AREAS, LENT(scratch), LENT(record), LENT(out)));
    tell("build in 9 of scratch", oscjardum_build(flat, 4, names, 4, AREAS, scratch, 9, LENT(record), LENT(out)));
    tell("build in 3 labels", oscjardum_build(flat, 4, names, 4, LENT(words), LENT(bytes), LENT(middles), LENT(larges), labels, 3, LENT(scratch), LENT(record), LENT(out)));
    printf("zero after it\t%d\n", zero(words, sizeof words) && zero(bytes, sizeof bytes) && zero(middles, sizeof middles)
           && zero(larges, sizeof larges) && zero(labels, 3 * sizeof labels[0]) && zero(scratch, sizeof scratch) && zero(record, sizeof record));
}

int main(void) {
    static const uint32_t levels[4] = {0, 1, 1, 0}, names[4] = {10, 20, 30, 40};
    uint64_t before[OSCJARDUM_RECORD];
    tell("build", oscjardum_build(LENT(levels), LENT(names), AREAS, LENT(scratch), LENT(record), LENT(out)));
    list();
    ask();
    ask_badly();
    walk();
    memcpy(before, record, sizeof record);
    tell("grow by level 2", oscjardum_grow(AREAS, LENT(scratch), LENT(record), 2, 50, LENT(out)));
    printf("the record stays\t%d\n", memcmp(before, record, sizeof record) == 0);
    tell("grow by level 1", oscjardum_grow(AREAS, LENT(scratch), LENT(record), 1, 50, LENT(out)));
    list();
    tell("first child of 4", oscjardum_first_child(AREAS, LENT(record), 7, 4, LENT(out)));
    build_badly();
    return 0;
}
