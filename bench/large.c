/* Long lists: every answer of the tree against a plain stack and, where it is there, the original Rust. See tools/large-runs. */
#include <inttypes.h>
#include <stdio.h>
#include <stdlib.h>
#include <string.h>
#include <time.h>

#include "lists.h"
#include "original.h"
#include "plain.h"
#include "tree.h"

/* How many nodes are asked: every one, or one in `stride`. */
typedef struct {
    size_t stride, leaves;
} Asked;

/* A list, what the stack says of it, the tree and the original. */
typedef struct {
    const char *name;
    size_t n;
    const uint32_t *levels, *labels;
    Plain plain;
    Tree tree;
    OriginalTree *original;
} Case;

static uint64_t compared;

#define SAME(c, what, at, got, wanted) \
    do { \
        compared++; \
        if ((uint64_t)(got) != (uint64_t)(wanted)) \
            differ(c, what, at, got, wanted); \
    } while (0)

static void differ(const Case *c, const char *what, uint64_t at, uint64_t got, uint64_t wanted)
{
    printf("DIFFERS %s %zu: %s at %" PRIu64 ": %" PRIu64 ", wanted %" PRIu64 "\n", c->name, c->n, what, at, got, wanted);
    exit(1);
}

static double seconds(void)
{
    struct timespec t;
    clock_gettime(CLOCK_PROCESS_CPUTIME_ID, &t);
    return (double)t.tv_sec + (double)t.tv_nsec * 1e-9;
}

static void done(const char *what, uint64_t count, double *since)
{
    double t = seconds();
    printf("  %-40s %12" PRIu64 "  %9.2f s\n", what, count, t - *since);
    fflush(stdout);
    *since = t;
}

/* What a call answered: its number and the four elements of out. */
static void told(const Case *c, const char *what, uint64_t at, uint64_t status, uint64_t wanted, uint64_t a, uint64_t b,
                 uint64_t d, uint64_t e)
{
    SAME(c, what, at, status, wanted);
    SAME(c, what, at, c->tree.out[0], a);
    SAME(c, what, at, c->tree.out[1], b);
    SAME(c, what, at, c->tree.out[2], d);
    SAME(c, what, at, c->tree.out[3], e);
}

/* Areas. */

static uint64_t element(const Tree *t, int area, size_t i)
{
    switch (area) {
    case 0: return t->words[i];
    case 1: return t->bytes[i];
    case 2: return t->middles[i];
    case 3: return t->larges[i];
    case 4: return t->labels[i];
    default: return t->scratch[i];
    }
}

static size_t length(const Tree *t, int area)
{
    const size_t lengths[6] = {t->words_len, t->bytes_len, t->middles_len, t->larges_len, t->labels_len, t->scratch_len};
    return lengths[area];
}

static void zeros_from(const Case *c, int area, size_t from)
{
    for (size_t i = from; i < length(&c->tree, area); i++)
        SAME(c, "zero", i, element(&c->tree, area, i), 0);
}

/* Areas 0 to 4 and the record of two trees, to their ends; the shorter area 4 is asked as far as it goes. */
static void same_areas(const Case *c, const Tree *t)
{
    for (int area = 0; area < 4; area++)
        for (size_t i = 0; i < length(t, area); i++)
            SAME(c, "area", i, element(&c->tree, area, i), element(t, area, i));
    for (size_t i = 0; i < c->tree.record[0]; i++)
        SAME(c, "label", i, c->tree.labels[i], t->labels[i]);
    for (size_t i = 0; i < OSCJARDUM_RECORD; i++)
        SAME(c, "record", i, c->tree.record[i], t->record[i]);
}

/* An area of the original from place `from` on; zeros behind it. */
static void as_original(const Case *c, int area)
{
    size_t room = length(&c->tree, area);
    uint64_t *all = need(room * sizeof *all);
    uint64_t count = original_area(c->original, (uint64_t)area, all, room);
    SAME(c, "the original's area fits", (uint64_t)area, count <= room, 1);
    for (size_t i = 0; i < count; i++)
        SAME(c, "the original's area", i, element(&c->tree, area, i), all[i]);
    zeros_from(c, area, count);
    free(all);
}

static void as_original_bits(const Case *c)
{
    uint64_t bits[5] = {0};
    uint64_t count = original_area(c->original, 9, bits, 5);
    SAME(c, "the original's levels", 0, count <= 5, 1);
    for (size_t i = 0; i < 5; i++)
        SAME(c, "the original's bits", i, c->tree.record[1 + i], bits[i]);
}

/* Areas 0 to 3 and the bits of each string as the original has them, where it is here. */
static void check_original_areas(const Case *c)
{
    if (c->original == NULL)
        return;
    for (int area = 0; area < 4; area++)
        as_original(c, area);
    as_original_bits(c);
}

/* The build: the string, the labels, the record, the size, and all areas as the original has them. */
static void check_build(Case *c, double *since)
{
    uint64_t level, block;
    tree_soil(&c->tree);
    told(c, "build", 0, tree_build(&c->tree, c->levels, c->labels, c->n), 0, 1, c->n, 0, 0);
    SAME(c, "record's nodes", 0, c->tree.record[0], c->n);
    SAME(c, "record's bits", 0, c->tree.record[1], c->plain.bits);
    for (size_t i = 0; i < c->plain.bits; i++)
        SAME(c, "string", i, c->tree.words[i / 64] >> (i % 64) & 1, c->plain.open[i]);
    for (size_t i = 0; i < c->n; i++)
        SAME(c, "label", i, c->tree.labels[i], c->labels[i]);
    zeros_from(c, 4, c->n);
    zeros_from(c, 5, 0);
    uint64_t size = plain_byte_size(&c->plain, &level, &block);
    told(c, "byte size", 0, tree_byte_size(&c->tree), 0, 1, size, 0, 0);
    if (c->original != NULL)
        SAME(c, "the original's byte size", 0, size, original_byte_size(c->original));
    check_original_areas(c);
    done("build, areas, byte size", size, since);
}

/* Questions. */

static void check_closes(Case *c, double *since)
{
    for (size_t i = 0; i < c->plain.bits; i++) {
        told(c, "bit", i, tree_bit(&c->tree, i), 0, 1, c->plain.open[i], 0, 0);
        if (!c->plain.open[i]) {
            told(c, "close of a close", i, tree_close(&c->tree, i), OSCJARDUM_CLOSE, 0, i, 0, 0);
            continue;
        }
        told(c, "close", i, tree_close(&c->tree, i), 0, 1, c->plain.close[i], 0, 0);
        if (c->original != NULL)
            SAME(c, "the original's close", i, original_close(c->original, i), c->plain.close[i]);
    }
    told(c, "close past the end", c->plain.bits, tree_close(&c->tree, c->plain.bits), OSCJARDUM_PLACE, 0, c->plain.bits, 0, 0);
    done("close of every open", c->n + 1, since);
}

/* The edge to the node of an id, or to none (0), as one of the two questions told it. */
static void check_edge(Case *c, const char *what, uint64_t from, uint64_t status, uint64_t id)
{
    if (id == 0)
        told(c, what, from, status, 0, 0, 0, 0, 0);
    else
        told(c, what, from, status, 0, 1, c->plain.place[id], id, c->labels[id - 1]);
}

static void check_original_edge(Case *c, const char *what, uint64_t from, uint64_t found, const uint64_t *edge, uint64_t id)
{
    SAME(c, what, from, found, id != 0);
    if (id != 0) {
        SAME(c, what, from, edge[0], c->plain.place[id]);
        SAME(c, what, from, edge[1], id);
        SAME(c, what, from, edge[2], c->labels[id - 1]);
    }
}

static void check_node(Case *c, uint64_t id)
{
    uint64_t place = c->plain.place[id], edge[3];
    uint64_t child = plain_first_child(&c->plain, id), sibling = plain_next_sibling(&c->plain, id);
    check_edge(c, "first child", id, tree_first_child(&c->tree, place, id), child);
    check_edge(c, "next sibling", id, tree_next_sibling(&c->tree, place, id), sibling);
    if (c->original != NULL) {
        uint64_t found = original_first_child(c->original, place, id, edge);
        check_original_edge(c, "the original's first child", id, found, edge, child);
        found = original_next_sibling(c->original, place, id, edge);
        check_original_edge(c, "the original's next sibling", id, found, edge, sibling);
    }
}

/* The label, and the refusals of a wrong id. */
static void check_label(Case *c, uint64_t id)
{
    uint64_t place = c->plain.place[id];
    if (id == 0)
        told(c, "label", id, tree_label(&c->tree, place, id), 0, 0, 0, 0, 0);
    else
        told(c, "label", id, tree_label(&c->tree, place, id), 0, 1, c->labels[id - 1], 0, 0);
    told(c, "wrong id", id, tree_label(&c->tree, place, id + 1), OSCJARDUM_PLACE, 0, place, 0, 0);
}

static void check_nodes(Case *c, size_t stride, double *since)
{
    uint64_t count = 0;
    for (size_t id = 0; id <= c->n; id += stride, count++)
        check_node(c, id);
    check_node(c, c->n);
    done(stride == 1 ? "first child, next sibling of every node" : "first child, next sibling of a sample", count, since);
    count = 0;
    for (size_t id = 0; id <= c->n; id += 97 * stride, count++)
        check_label(c, id);
    done("label, wrong id of a sample", count, since);
}

static void check_leaves(Case *c, size_t most, double *since)
{
    size_t stride = c->n / most + 1, count = 0;
    for (size_t id = 0; id <= c->n; id += stride, count++) {
        uint64_t place = c->plain.place[id];
        told(c, "leaf count", id, tree_leaf_count(&c->tree, place, id), 0, 1, plain_leaf_count(&c->plain, id), 0, 0);
    }
    done("leaf count of a sample", count, since);
}

static void check_walk(Case *c, double *since)
{
    uint32_t *levels = need(c->n * sizeof *levels), *labels = need(c->n * sizeof *labels);
    told(c, "walk", 0, tree_walk(&c->tree, levels, labels, c->n), 0, 1, c->n, 0, 0);
    for (size_t i = 0; i < c->n; i++) {
        SAME(c, "walk's level", i, levels[i], c->levels[i]);
        SAME(c, "walk's label", i, labels[i], c->labels[i]);
    }
    zeros_from(c, 5, 0);
    done("walk back to levels and labels", c->n, since);
    if (c->original != NULL) {
        SAME(c, "the original's walk", 0, original_walk(c->original, levels, labels, c->n), c->n);
        SAME(c, "the original's levels", 0, memcmp(levels, c->levels, c->n * sizeof *levels), 0);
        SAME(c, "the original's labels", 0, memcmp(labels, c->labels, c->n * sizeof *labels), 0);
        done("the original's walk", c->n, since);
    }
    free(levels);
    free(labels);
}

static Case case_of(const char *name, const uint32_t *levels, size_t n)
{
    Case c = {.name = name, .n = n, .levels = levels, .labels = list_labels(n)};
    c.plain = plain_of(levels, n);
    c.tree = tree_lend(n);
    c.original = original_here() ? original_build(levels, c.labels, n) : NULL;
    return c;
}

static void case_end(Case *c)
{
    free((void *)c->labels);
    plain_free(&c->plain);
    tree_return(&c->tree);
    if (c->original != NULL)
        original_free(c->original);
}

/* Everything of one list; the walk if `walk` says so. */
static void run_list(const char *name, const uint32_t *levels, size_t n, Asked asked, int walk)
{
    double since = seconds();
    printf("%s, %zu nodes\n", name, n);
    Case c = case_of(name, levels, n);
    done("made", n, &since);
    check_build(&c, &since);
    check_closes(&c, &since);
    check_nodes(&c, asked.stride, &since);
    check_leaves(&c, asked.leaves, &since);
    if (walk)
        check_walk(&c, &since);
    case_end(&c);
}

/* Growth. */

/* After a step: the areas of the original's tree of the longer list, and the first child and next sibling of every node, or of 3,000 and the last. */
static void check_step(Case *c)
{
    c->plain = plain_of(c->levels, c->n);
    c->original = original_here() ? original_build(c->levels, c->labels, c->n) : NULL;
    check_original_areas(c);
    for (size_t id = 0; id <= c->n; id += c->n / 3000 + 1)
        check_node(c, id);
    check_node(c, c->n);
    plain_free(&c->plain);
    if (c->original != NULL)
        original_free(c->original);
}

/* From `from` nodes to `to`, a step at a time; after each the areas are those of a build, and the answers those of the longer list. */
static void check_growth(const char *name, const uint32_t *levels, size_t from, size_t to)
{
    uint32_t *labels = list_labels(to);
    Tree afresh = tree_lend(to);
    Case c = {.name = name, .n = from, .levels = levels, .labels = labels, .tree = tree_lend(to)};
    told(&c, "build", from, tree_build(&c.tree, levels, labels, from), 0, 1, from, 0, 0);
    for (size_t n = from; n < to; n++) {
        c.n = n + 1;
        told(&c, "growth", n, tree_grow(&c.tree, levels[n], labels[n]), 0, 1, n + 1, 0, 0);
        SAME(&c, "build afresh", n + 1, tree_build(&afresh, levels, labels, n + 1), 0);
        same_areas(&c, &afresh);
        zeros_from(&c, 5, 0);
        check_step(&c);
    }
    tree_return(&c.tree);
    tree_return(&afresh);
    free(labels);
}

/* About so many places: a string of 2n + 2 bits, for each n from a little below to a little above. */
static void growth_about(Shape shape, size_t places, size_t around, double *since)
{
    char what[60];
    size_t n = places / 2 - 1;
    uint32_t *levels = list_levels(shape, n + around);
    check_growth(shape_names[shape], levels, n - around, n + around);
    snprintf(what, sizeof what, "%s about %zu places", shape_names[shape], places);
    done(what, 2 * around, since);
    free(levels);
}

/* Every step of the first nodes: 64-bit words, and 256 and 2,048 places, of the string and of its pioneer strings. */
static void growth_from_nothing(Shape shape, size_t n, double *since)
{
    char what[60];
    uint32_t *levels = list_levels(shape, n);
    check_growth(shape_names[shape], levels, 0, n);
    snprintf(what, sizeof what, "%s from the empty list", shape_names[shape]);
    done(what, n, since);
    free(levels);
}

static void run_growth(int quick)
{
    double since = seconds();
    printf("growth, each step against a build afresh and the original\n");
    for (Shape s = 0; s < SHAPES; s++) {
        growth_from_nothing(s, quick ? 300 : 2300, &since);
        growth_about(s, 65536, quick ? 3 : 40, &since);
        if (!quick) {
            growth_about(s, 131072, 10, &since);
            growth_about(s, 1048576, 5, &since);
        }
    }
}

/* Refusals. */

static void all_zero(const Case *c)
{
    for (int area = 0; area < 6; area++)
        zeros_from(c, area, 0);
    for (size_t i = 0; i < OSCJARDUM_RECORD; i++)
        SAME(c, "record", i, c->tree.record[i], 0);
}

/* A build that is refused leaves zeros everywhere. */
static void refused_build(const char *name, const uint32_t *levels, size_t n, uint64_t number, uint64_t a, uint64_t b)
{
    Case c = {.name = name, .n = n, .labels = list_labels(n)};
    c.tree = tree_lend(n < OSCJARDUM_NODES_MOST ? n : OSCJARDUM_NODES_MOST);
    told(&c, "build", 0, tree_build(&c.tree, levels, c.labels, n), number, 0, a, b, 0);
    all_zero(&c);
    tree_return(&c.tree);
    free((void *)c.labels);
}

/* A growth that is refused leaves areas 0 to 4 and the record as they stood, and scratch zero. */
static void refused_growth(const char *name, const uint32_t *levels, size_t n, uint64_t number, uint64_t a, uint64_t b)
{
    uint32_t *labels = list_labels(n + 1);
    Case c = {.name = name, .n = n, .tree = tree_lend(n + 1)};
    Tree stood = tree_lend(n + 1);
    SAME(&c, "build", n, tree_build(&c.tree, levels, labels, n), 0);
    SAME(&c, "build", n, tree_build(&stood, levels, labels, n), 0);
    told(&c, "growth", n, tree_grow(&c.tree, levels[n], labels[n]), number, 0, a, b, 0);
    same_areas(&c, &stood);
    zeros_from(&c, 4, n);
    zeros_from(&c, 5, 0);
    tree_return(&c.tree);
    tree_return(&stood);
    free(labels);
}

/* ROOM. */

static size_t *length_of(Tree *t, int area)
{
    size_t *const lengths[6] = {&t->words_len, &t->bytes_len, &t->middles_len, &t->larges_len, &t->labels_len, &t->scratch_len};
    return lengths[area];
}

/* How long an area must be for the list of a record. */
static size_t needed(const uint64_t *record, int area)
{
    const uint64_t *bits = record + 1, *entries = record + 6 + 4 * (area - 1);
    size_t sum = 0;
    if (area == 0)
        for (int k = 0; k < 5; k++)
            sum += (bits[k] + 63) / 64;
    else if (area < 4)
        for (int k = 0; k < 4; k++)
            sum += (area == 1 ? 1 : 2) * entries[k];
    else
        sum = area == 4 ? record[0] : 2 * record[0] + 2;
    return sum;
}

/* A build with an area of one element too few: ROOM, zeros, and nothing written behind what is lent. */
static void short_build(Case *c, int area, size_t exact)
{
    size_t *lent = length_of(&c->tree, area);
    tree_soil(&c->tree);
    uint64_t behind = element(&c->tree, area, exact - 1);
    *lent = exact - 1;
    told(c, "build without room", (uint64_t)area, tree_build(&c->tree, c->levels, c->labels, c->n), OSCJARDUM_ROOM, 0, (uint64_t)area, 0, 0);
    all_zero(c);
    SAME(c, "behind what is lent", (uint64_t)area, element(&c->tree, area, exact - 1), behind);
    *lent = exact;
}

/* Areas exactly as long as needed are accepted, and none may be shorter. */
static void check_rooms(Case *c)
{
    size_t exact[6];
    SAME(c, "build", 0, tree_build(&c->tree, c->levels, c->labels, c->n), 0);
    for (int area = 0; area < 6; area++) {
        exact[area] = needed(c->tree.record, area);
        SAME(c, "the header's size is enough", (uint64_t)area, exact[area] <= length(&c->tree, area), 1);
    }
    for (int area = 0; area < 6; area++)
        *length_of(&c->tree, area) = exact[area];
    told(c, "build, nothing spare", 0, tree_build(&c->tree, c->levels, c->labels, c->n), 0, 1, c->n, 0, 0);
    for (int area = 0; area < 6; area++)
        short_build(c, area, exact[area]);
}

/* A node that makes an area's need grow, at most `most` nodes before the end; 0 if there is none. */
static size_t growing(Case *c, int area, size_t most)
{
    size_t last = needed(c->tree.record, area);
    for (size_t n = c->n - 1; n > 0 && n + most > c->n; n--) {
        SAME(c, "build", n, tree_build(&c->tree, c->levels, c->labels, n), 0);
        size_t own = needed(c->tree.record, area);
        if (own < last)
            return n;
        last = own;
    }
    return 0;
}

/* Growth by that node with one element too few: ROOM, and all as it stood. Answers 1 if there was such a node. */
static uint64_t short_growth(const char *name, const uint32_t *levels, size_t n, int area)
{
    Case c = {.name = name, .n = n, .levels = levels, .labels = list_labels(n), .tree = tree_lend(n)};
    Tree stood = tree_lend(n);
    SAME(&c, "build", n, tree_build(&c.tree, levels, c.labels, n), 0);
    size_t from = growing(&c, area, 3000);
    if (from != 0) {
        SAME(&c, "build", from, tree_build(&c.tree, levels, c.labels, from + 1), 0);
        size_t lent = needed(c.tree.record, area) - 1;
        *length_of(&c.tree, area) = *length_of(&stood, area) = lent;
        SAME(&c, "build", from, tree_build(&c.tree, levels, c.labels, from), 0);
        SAME(&c, "build", from, tree_build(&stood, levels, c.labels, from), 0);
        told(&c, "growth without room", from, tree_grow(&c.tree, levels[from], 7), OSCJARDUM_ROOM, 0, (uint64_t)area, 0, 0);
        same_areas(&c, &stood);
        zeros_from(&c, 4, from);
        zeros_from(&c, 5, 0);
    }
    tree_return(&c.tree);
    tree_return(&stood);
    free((void *)c.labels);
    return from != 0;
}

static void run_rooms(size_t n)
{
    double since = seconds();
    printf("ROOM\n");
    for (Shape s = 0; s < SHAPES; s++) {
        uint64_t grown = 0;
        uint32_t *levels = list_levels(s, n);
        Case c = {.name = shape_names[s], .n = n, .levels = levels, .labels = list_labels(n), .tree = tree_lend(n)};
        check_rooms(&c);
        for (int area = 0; area < 6; area++)
            grown += short_growth(shape_names[s], levels, n, area);
        SAME(&c, "areas that growth lacked", 0, grown >= 4, 1);
        tree_return(&c.tree);
        free((void *)c.labels);
        free(levels);
        done(shape_names[s], 6 + grown, &since);
    }
}

static void run_many(void)
{
    double since = seconds();
    size_t n = OSCJARDUM_NODES_MOST + 1;
    printf("MANY\n");
    for (Shape s = 0; s < 2; s++) {
        uint32_t *levels = list_levels(s, n);
        refused_build(shape_names[s], levels, n, OSCJARDUM_MANY, n, 0);
        done(s == FLAT ? "build of a flat list" : "build of a chain", n, &since);
        refused_growth(shape_names[s], levels, n - 1, OSCJARDUM_MANY, n, 0);
        done(s == FLAT ? "growth of a flat list" : "growth of a chain", n, &since);
        free(levels);
    }
}

/* A prefix of a FULL list that the stack calls FULL, and the one shorter by a node not; found by halves. */
static size_t first_full(const uint32_t *levels, size_t n, uint64_t *level, uint64_t *block)
{
    size_t low = 0, high = n;
    while (low + 1 < high) {
        size_t middle = (low + high) / 2;
        Plain s = plain_of(levels, middle);
        if (plain_byte_size(&s, level, block) == 0)
            high = middle;
        else
            low = middle;
        plain_free(&s);
    }
    Plain s = plain_of(levels, high);
    plain_byte_size(&s, level, block);
    plain_free(&s);
    return high;
}

static void run_full(const char *name, size_t flat, uint32_t top, double *since)
{
    uint64_t level, block;
    size_t n;
    uint32_t *levels = list_pyramid(flat, top, &n);
    Plain s = plain_of(levels, n);
    if (plain_byte_size(&s, &level, &block) != 0) {
        printf("DIFFERS %s: the list is not FULL\n", name);
        exit(1);
    }
    plain_free(&s);
    refused_build(name, levels, n, OSCJARDUM_FULL, level, block);
    done(name, n, since);
    size_t first = first_full(levels, n, &level, &block);
    refused_build(name, levels, first, OSCJARDUM_FULL, level, block);
    refused_growth(name, levels, first - 1, OSCJARDUM_FULL, level, block);
    check_growth(name, levels, first - 4, first - 1);
    done("  a FULL prefix, by growth too", first, since);
    free(levels);
}

static void run_fulls(int quick)
{
    double since = seconds();
    size_t n;
    printf("FULL\n");
    uint32_t *levels = list_pyramid(0, 253, &n);
    run_list("levels 0 to 253, accepted", levels, n, (Asked){1, 500}, 1);
    free(levels);
    since = seconds();
    run_full("levels 0 to 254", 0, 254, &since);
    run_full("behind 12345 nodes, levels 0 to 700", 12345, 700, &since);
    if (!quick)
        run_full("behind 1000000 nodes, levels 0 to 600", 1000000, 600, &since);
}

static void run_shape(Shape s, size_t n, Asked asked, int walk)
{
    uint32_t *levels = list_levels(s, n);
    run_list(shape_names[s], levels, n, asked, walk);
    free(levels);
}

static int run_recorded(const char *path, Asked asked)
{
    size_t n;
    uint32_t *levels = list_recorded(path, &n);
    if (levels == NULL) {
        printf("%s: no list\n", path);
        return 1;
    }
    run_list("four pioneer levels", levels, n, asked, 1);
    free(levels);
    return 0;
}

/* What a plain run does, or a quick one, of some seconds. */
static int run_all(const char *recorded, int quick)
{
    Asked some = {quick ? 20 : 1, quick ? 50 : 500};
    for (Shape s = 0; s < SHAPES; s++)
        run_shape(s, 100000, some, !quick);
    if (run_recorded(recorded, some) != 0)
        return 1;
    run_growth(quick);
    run_rooms(33000);
    run_fulls(quick);
    run_many();
    if (quick)
        return 0;
    for (Shape s = 0; s < SHAPES; s++)
        run_shape(s, OSCJARDUM_NODES_MOST, (Asked){100, 50}, 0);
    return 0;
}

/* The longest list of one shape, or of each: every node is asked, and the walk is made. Answers how many lists. */
static int run_every(const char *name)
{
    int lists = 0;
    for (Shape s = 0; s < SHAPES; s++)
        if (name == NULL || strcmp(name, shape_names[s]) == 0) {
            run_shape(s, OSCJARDUM_NODES_MOST, (Asked){1, 50}, 1);
            lists++;
        }
    return lists;
}

static int usage(void)
{
    fprintf(stderr, "usage: large testdata/large.txt [--quick | --every [flat | chain | comb | walk | uniform]]\n");
    return 2;
}

int main(int words, char **word)
{
    int quick = words == 3 && strcmp(word[2], "--quick") == 0;
    int every = words >= 3 && words <= 4 && strcmp(word[2], "--every") == 0;
    double start = seconds();
    if (words != 2 && !quick && !every)
        return usage();
    printf("the original Rust: %s\n", original_here() ? "compared too" : "not here, so not compared");
    if (every && run_every(words == 4 ? word[3] : NULL) == 0)
        return usage();
    if (!every && run_all(word[1], quick) != 0)
        return 1;
    printf("%" PRIu64 " comparisons, none differs; %.1f s\n", compared, seconds() - start);
    return 0;
}
