/* A tree in six lent areas: the calls of include/oscjardum.h upon one struct. */
#ifndef TREE_H
#define TREE_H

#include "oscjardum.h"

typedef struct {
    uint64_t *words;
    uint8_t *bytes;
    uint16_t *middles;
    uint64_t *larges;
    uint32_t *labels;
    uint64_t *scratch;
    size_t words_len, bytes_len, middles_len, larges_len, labels_len, scratch_len;
    uint64_t record[OSCJARDUM_RECORD];
    uint64_t out[OSCJARDUM_OUT];
} Tree;

/* Areas for lists of up to n nodes (by the header's formulas), written to with a pattern; and their end. */
Tree tree_lend(size_t n);
void tree_return(Tree *t);

/* Each answers what the function of that name answers; what it tells is in t->out. */
uint64_t tree_build(Tree *t, const uint32_t *levels, const uint32_t *labels, size_t n);
uint64_t tree_grow(Tree *t, uint32_t level, uint32_t label);
uint64_t tree_first_child(Tree *t, uint64_t place, uint64_t id);
uint64_t tree_next_sibling(Tree *t, uint64_t place, uint64_t id);
uint64_t tree_label(Tree *t, uint64_t place, uint64_t id);
uint64_t tree_leaf_count(Tree *t, uint64_t place, uint64_t id);
uint64_t tree_close(Tree *t, uint64_t place);
uint64_t tree_bit(Tree *t, uint64_t place);
uint64_t tree_byte_size(Tree *t);
uint64_t tree_walk(Tree *t, uint32_t *levels, uint32_t *labels, size_t n);

/* Writes the pattern over all areas and the record. */
void tree_soil(Tree *t);

#endif
