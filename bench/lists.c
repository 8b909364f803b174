/* Level lists by shape, always the same. */
#include "lists.h"

#include <inttypes.h>
#include <stdio.h>
#include <stdlib.h>

const char *const shape_names[SHAPES] = {"flat", "chain", "comb", "walk", "uniform"};

void *need(size_t bytes)
{
    void *p = malloc(bytes ? bytes : 1);
    if (p == NULL) {
        fprintf(stderr, "no memory for %zu bytes\n", bytes);
        exit(2);
    }
    return p;
}

/* The generator of oracle/src/bin/sample/random.rs, with its seed. */
static uint64_t random_word(uint64_t *state)
{
    *state ^= *state << 13;
    *state ^= *state >> 7;
    *state ^= *state << 17;
    return *state;
}

static uint64_t random_below(uint64_t *state, uint64_t end)
{
    return (random_word(state) >> 11) % end;
}

static uint64_t seed(void)
{
    return 88172645463325252u;
}

/* A level deeper every second node, else as deep or back, so that the mean step is 0; never below level 0. */
static void walk_levels(uint32_t *levels, size_t n)
{
    static const int steps[8] = {1, 1, 1, 1, 0, -1, -1, -2};
    uint64_t state = seed();
    int64_t last = -1;
    for (size_t k = 0; k < n; k++) {
        int64_t next = last + steps[random_below(&state, 8)];
        last = k == 0 || next < 0 ? 0 : next;
        levels[k] = (uint32_t)last;
    }
}

/* n opens and n + 1 closes in any order, each order as likely as another. */
static uint8_t *shuffled(size_t n)
{
    uint64_t state = seed();
    uint8_t *open = need(2 * n + 1);
    for (size_t i = 0; i < 2 * n + 1; i++)
        open[i] = i < n;
    for (size_t i = 2 * n; i > 0; i--) {
        size_t j = random_below(&state, i + 1);
        uint8_t b = open[i];
        open[i] = open[j];
        open[j] = b;
    }
    return open;
}

/* Where the one rotation starts that is balanced but for its last close: after the first of the lowest sums. */
static size_t lowest(const uint8_t *open, size_t m)
{
    int64_t sum = 0, least = 0;
    size_t start = 0;
    for (size_t i = 0; i < m; i++) {
        sum += open[i] ? 1 : -1;
        if (sum < least) {
            least = sum;
            start = i + 1;
        }
    }
    return start % m;
}

/* Every tree of n nodes is as likely as another (the cycle lemma). */
static void uniform_levels(uint32_t *levels, size_t n)
{
    size_t m = 2 * n + 1, k = 0;
    uint8_t *open = shuffled(n);
    size_t start = lowest(open, m);
    uint32_t depth = 0;
    for (size_t i = 0; i + 1 < m; i++) {
        if (open[(start + i) % m])
            levels[k++] = depth++;
        else
            depth--;
    }
    free(open);
}

uint32_t *list_levels(Shape shape, size_t n)
{
    uint32_t *levels = need(n * sizeof *levels);
    if (shape == WALK)
        walk_levels(levels, n);
    else if (shape == UNIFORM)
        uniform_levels(levels, n);
    else
        for (size_t k = 0; k < n; k++)
            levels[k] = shape == FLAT ? 0 : (uint32_t)(shape == CHAIN ? k : (k + 1) / 2);
    return levels;
}

uint32_t *list_labels(size_t n)
{
    uint32_t *labels = need(n * sizeof *labels);
    for (size_t k = 0; k < n; k++)
        labels[k] = (uint32_t)k * 2654435761u + 1;
    return labels;
}

uint32_t *list_pyramid(size_t flat, uint32_t top, size_t *n)
{
    size_t k = 0;
    *n = flat + 33 * ((size_t)top + 1);
    uint32_t *levels = need(*n * sizeof *levels);
    while (k < flat)
        levels[k++] = 0;
    for (uint32_t v = 0; v <= top; v++)
        levels[k++] = v;
    for (size_t i = 0; k < *n; i++)
        levels[k++] = top - (uint32_t)(i / 32);
    return levels;
}

/* The levels of n nodes, read off the words of their string. */
static uint32_t *levels_from_words(FILE *f, size_t n)
{
    uint32_t *levels = need(n * sizeof *levels);
    uint64_t word = 0;
    uint32_t depth = 0;
    size_t k = 0;
    for (size_t i = 0; i < 2 * n + 2; i++) {
        if (i % 64 == 0 && fscanf(f, "%" SCNu64, &word) != 1)
            break;
        if ((word >> (i % 64) & 1) == 0)
            depth--;
        else if (depth++ > 0 && k < n)
            levels[k++] = depth - 2;
    }
    if (k == n && depth == 0)
        return levels;
    free(levels);
    return NULL;
}

uint32_t *list_recorded(const char *path, size_t *n)
{
    FILE *f = fopen(path, "r");
    if (f == NULL)
        return NULL;
    uint32_t *levels = fscanf(f, "treew %zu", n) == 1 ? levels_from_words(f, *n) : NULL;
    fclose(f);
    return levels;
}
