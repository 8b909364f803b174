/* A tree in six lent areas. */
#include "tree.h"

#include <stdlib.h>
#include <string.h>

#include "lists.h"

/* The areas as the calls take them, and the record and out. */
#define AREAS \
    t->words, t->words_len, t->bytes, t->bytes_len, t->middles, t->middles_len, t->larges, t->larges_len, t->labels, \
        t->labels_len
#define SCRATCH t->scratch, t->scratch_len
#define RECORD t->record, OSCJARDUM_RECORD
#define OUT t->out, OSCJARDUM_OUT

Tree tree_lend(size_t n)
{
    Tree t = {
        .words_len = oscjardum_words_for(n),
        .bytes_len = oscjardum_bytes_for(n),
        .middles_len = oscjardum_middles_for(n),
        .larges_len = oscjardum_larges_for(n),
        .labels_len = oscjardum_labels_for(n),
        .scratch_len = oscjardum_scratch_for(n),
    };
    t.words = need(t.words_len * sizeof *t.words);
    t.bytes = need(t.bytes_len * sizeof *t.bytes);
    t.middles = need(t.middles_len * sizeof *t.middles);
    t.larges = need(t.larges_len * sizeof *t.larges);
    t.labels = need(t.labels_len * sizeof *t.labels);
    t.scratch = need(t.scratch_len * sizeof *t.scratch);
    tree_soil(&t);
    return t;
}

void tree_soil(Tree *t)
{
    memset(t->words, 0xa5, t->words_len * sizeof *t->words);
    memset(t->bytes, 0xa5, t->bytes_len * sizeof *t->bytes);
    memset(t->middles, 0xa5, t->middles_len * sizeof *t->middles);
    memset(t->larges, 0xa5, t->larges_len * sizeof *t->larges);
    memset(t->labels, 0xa5, t->labels_len * sizeof *t->labels);
    memset(t->scratch, 0xa5, t->scratch_len * sizeof *t->scratch);
    memset(t->record, 0xa5, sizeof t->record);
}

void tree_return(Tree *t)
{
    free(t->words);
    free(t->bytes);
    free(t->middles);
    free(t->larges);
    free(t->labels);
    free(t->scratch);
}

uint64_t tree_build(Tree *t, const uint32_t *levels, const uint32_t *labels, size_t n)
{
    return oscjardum_build(levels, n, labels, n, AREAS, SCRATCH, RECORD, OUT);
}

uint64_t tree_grow(Tree *t, uint32_t level, uint32_t label)
{
    return oscjardum_grow(AREAS, SCRATCH, RECORD, level, label, OUT);
}

uint64_t tree_first_child(Tree *t, uint64_t place, uint64_t id)
{
    return oscjardum_first_child(AREAS, RECORD, place, id, OUT);
}

uint64_t tree_next_sibling(Tree *t, uint64_t place, uint64_t id)
{
    return oscjardum_next_sibling(AREAS, RECORD, place, id, OUT);
}

uint64_t tree_label(Tree *t, uint64_t place, uint64_t id)
{
    return oscjardum_label(AREAS, RECORD, place, id, OUT);
}

uint64_t tree_leaf_count(Tree *t, uint64_t place, uint64_t id)
{
    return oscjardum_leaf_count(AREAS, RECORD, place, id, OUT);
}

uint64_t tree_close(Tree *t, uint64_t place)
{
    return oscjardum_close(AREAS, RECORD, place, OUT);
}

uint64_t tree_bit(Tree *t, uint64_t place)
{
    return oscjardum_bit(AREAS, RECORD, place, OUT);
}

uint64_t tree_byte_size(Tree *t)
{
    return oscjardum_byte_size(AREAS, RECORD, OUT);
}

uint64_t tree_walk(Tree *t, uint32_t *levels, uint32_t *labels, size_t n)
{
    return oscjardum_walk(AREAS, SCRATCH, RECORD, levels, n, labels, n, OUT);
}
