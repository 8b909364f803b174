/* One question or growth again and again, for a profiler: bench/one has the arguments. */
#include <stdio.h>
#include <stdlib.h>
#include <string.h>
#include <time.h>

#include "lists.h"
#include "tree.h"

static double seconds(void)
{
    struct timespec t;
    clock_gettime(CLOCK_PROCESS_CPUTIME_ID, &t);
    return (double)t.tv_sec + (double)t.tv_nsec * 1e-9;
}

static int is_open(const Tree *t, uint64_t place)
{
    return (int)(t->words[place / 64] >> place % 64 & 1);
}

static size_t closes(Tree *t, size_t n)
{
    for (uint64_t place = 0; place < 2 * n + 2; place++)
        if (is_open(t, place))
            tree_close(t, place);
    return n + 1;
}

static size_t bits(Tree *t, size_t n)
{
    for (uint64_t place = 0; place < 2 * n + 2; place++)
        tree_bit(t, place);
    return 2 * n + 2;
}

/* Growth works from the string and the record alone: these are put back. */
static size_t growth(Tree *t, uint32_t level, const uint64_t *words, const uint64_t *record)
{
    memcpy(t->words, words, t->words_len * sizeof *words);
    memcpy(t->record, record, sizeof t->record);
    tree_grow(t, level, 1);
    return 1;
}

static Shape shape_of(const char *name)
{
    int shape = 0;
    while (shape < SHAPES && strcmp(name, shape_names[shape]) != 0)
        shape++;
    return (Shape)shape;
}

int main(int argc, char **argv)
{
    Shape shape = argc == 5 ? shape_of(argv[2]) : SHAPES;
    if (shape == SHAPES || !strchr("cbg", argv[1][0])) {
        fputs("usage: bench/one close|bit|growth LIST NODES TIMES\n", stderr);
        return 2;
    }
    size_t n = strtoul(argv[3], NULL, 10), times = strtoul(argv[4], NULL, 10), asked = 0;
    uint32_t *levels = list_levels(shape, n + 1), *labels = list_labels(n + 1);
    Tree t = tree_lend(n + 1);
    if (tree_build(&t, levels, labels, n) != 0)
        return 1;
    uint64_t *words = need(t.words_len * sizeof *words), record[OSCJARDUM_RECORD];
    memcpy(words, t.words, t.words_len * sizeof *words);
    memcpy(record, t.record, sizeof record);
    double start = seconds();
    for (size_t i = 0; i < times; i++)
        asked += argv[1][0] == 'c' ? closes(&t, n) : argv[1][0] == 'b' ? bits(&t, n) : growth(&t, levels[n], words, record);
    printf("%s, %s, %zu nodes: %.1f ns each\n", argv[1], argv[2], n, (seconds() - start) / (double)asked * 1e9);
    return 0;
}
