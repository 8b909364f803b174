/* Times of the tree, of the original Rust and of sdsl on the same lists, as a table. See bench/run. */
#include <inttypes.h>
#include <stdio.h>
#include <stdlib.h>
#include <string.h>
#include <time.h>

#include "lists.h"
#include "original.h"
#include "plain.h"
#include "sdsl.h"
#include "tree.h"

/* A list and what is built of it. `asked` ids, evenly spread, are put the questions that check an id. */
typedef struct {
    const uint32_t *levels, *labels;
    size_t n, asked, steps;
    Plain plain;
    Tree tree;
    OriginalTree *original;
    SdslTree *sdsl;
    uint32_t *out_levels, *out_labels;
} List;

/* What is timed. It answers a sum that the three must agree upon. */
typedef uint64_t (*Run)(List *l);

static double seconds(void)
{
    struct timespec t;
    clock_gettime(CLOCK_PROCESS_CPUTIME_ID, &t);
    return (double)t.tv_sec + (double)t.tv_nsec * 1e-9;
}

static uint64_t nothing(List *l)
{
    (void)l;
    return 0;
}

/* The seconds and the sum of the fastest run of each of the three; -1 where there is none. */
typedef struct {
    double best[3];
    uint64_t sum[3];
} Times;

/* One run of each in turn, so that a busy machine meets all alike: 3 turns, then more up to 200 until 0.6 seconds are spent. */
static Times fastest(List *l, Run before, const Run run[3])
{
    Times t = {{-1, -1, -1}, {0, 0, 0}};
    double spent = 0;
    for (int i = 0; i < 200 && (i < 3 || spent < 0.6); i++)
        for (int k = 0; k < 3; k++) {
            if (run[k] == NULL)
                continue;
            before(l);
            double start = seconds();
            t.sum[k] = run[k](l);
            double took = seconds() - start;
            t.best[k] = t.best[k] < 0 || took < t.best[k] ? took : t.best[k];
            spent += took;
        }
    return t;
}

static uint64_t id_of(const List *l, size_t k)
{
    return l->asked > l->n ? k : k * (l->n / l->asked);
}

/* Ours. */

static uint64_t ours_build(List *l)
{
    return tree_build(&l->tree, l->levels, l->labels, l->n);
}

static uint64_t ours_shorter(List *l)
{
    return tree_build(&l->tree, l->levels, l->labels, l->n - l->steps);
}

static uint64_t ours_growth(List *l)
{
    uint64_t refused = 0;
    for (size_t k = l->n - l->steps; k < l->n; k++)
        refused += tree_grow(&l->tree, l->levels[k], l->labels[k]);
    return refused;
}

static uint64_t ours_closes(List *l)
{
    uint64_t sum = 0;
    for (size_t id = 0; id <= l->n; id++) {
        tree_close(&l->tree, l->plain.place[id]);
        sum += l->tree.out[1];
    }
    return sum;
}

static uint64_t ours_siblings(List *l)
{
    uint64_t sum = 0;
    for (size_t k = 0; k < l->asked; k++) {
        uint64_t id = id_of(l, k);
        tree_next_sibling(&l->tree, l->plain.place[id], id);
        sum += l->tree.out[0] ? l->tree.out[1] + l->tree.out[2] : 0;
    }
    return sum;
}

/* What a walk asks of each node: its first child and its next sibling. */
static uint64_t ours_both(List *l)
{
    uint64_t sum = ours_siblings(l);
    for (size_t k = 0; k < l->asked; k++) {
        uint64_t id = id_of(l, k);
        tree_first_child(&l->tree, l->plain.place[id], id);
        sum += l->tree.out[0] ? l->tree.out[1] + l->tree.out[2] : 0;
    }
    return sum;
}

static uint64_t ours_labels(List *l)
{
    uint64_t sum = 0;
    for (size_t k = 0; k < l->asked; k++) {
        uint64_t id = id_of(l, k);
        tree_label(&l->tree, l->plain.place[id], id);
        sum += l->tree.out[1];
    }
    return sum;
}

static uint64_t ours_leaves(List *l)
{
    tree_leaf_count(&l->tree, 0, 0);
    return l->tree.out[1];
}

static uint64_t ours_walk(List *l)
{
    tree_walk(&l->tree, l->out_levels, l->out_labels, l->n);
    return l->tree.out[1];
}

/* The original's. It has no growth: a longer list is built anew. */

static uint64_t original_again(List *l)
{
    original_free(l->original);
    l->original = original_build(l->levels, l->labels, l->n);
    return 0;
}

static uint64_t original_closes(List *l)
{
    uint64_t sum = 0;
    for (size_t id = 0; id <= l->n; id++)
        sum += original_close(l->original, l->plain.place[id]);
    return sum;
}

static uint64_t original_siblings(List *l)
{
    uint64_t sum = 0, edge[3];
    for (size_t k = 0; k < l->asked; k++) {
        uint64_t id = id_of(l, k);
        if (original_next_sibling(l->original, l->plain.place[id], id, edge))
            sum += edge[0] + edge[1];
    }
    return sum;
}

static uint64_t original_both(List *l)
{
    uint64_t sum = original_siblings(l), edge[3];
    for (size_t k = 0; k < l->asked; k++) {
        uint64_t id = id_of(l, k);
        if (original_first_child(l->original, l->plain.place[id], id, edge))
            sum += edge[0] + edge[1];
    }
    return sum;
}

static uint64_t original_walks(List *l)
{
    return original_walk(l->original, l->out_levels, l->out_labels, l->n);
}

/* sdsl's, likewise. */

static uint64_t sdsl_again(List *l)
{
    sdsl_free(l->sdsl);
    l->sdsl = sdsl_build(l->levels, l->n);
    return 0;
}

static uint64_t sdsl_closes(List *l)
{
    uint64_t sum = 0;
    for (size_t id = 0; id <= l->n; id++)
        sum += sdsl_close(l->sdsl, l->plain.place[id]);
    return sum;
}

static uint64_t sdsl_siblings(List *l)
{
    uint64_t sum = 0, edge[2];
    for (size_t k = 0; k < l->asked; k++) {
        uint64_t id = id_of(l, k);
        if (sdsl_next_sibling(l->sdsl, l->plain.place[id], id, edge))
            sum += edge[0] + edge[1];
    }
    return sum;
}

static uint64_t sdsl_both(List *l)
{
    uint64_t sum = sdsl_siblings(l), edge[2];
    for (size_t k = 0; k < l->asked; k++) {
        uint64_t id = id_of(l, k);
        if (sdsl_first_child(l->sdsl, l->plain.place[id], id, edge))
            sum += edge[0] + edge[1];
    }
    return sum;
}

static uint64_t sdsl_walks(List *l)
{
    return sdsl_walk(l->sdsl, l->out_levels, l->n);
}

/* The table. */

static void cell(double v, const char *unit)
{
    if (v < 0)
        printf(" - |");
    else
        printf(v < 10 ? " %.2f%s |" : v < 100 ? " %.1f%s |" : " %.0f%s |", v, unit);
}

static void time_cell(double s)
{
    if (s < 0)
        cell(-1, "");
    else if (s < 1e-6)
        cell(s * 1e9, " ns");
    else if (s < 1e-3)
        cell(s * 1e6, " us");
    else
        cell(s * 1e3, " ms");
}

static void ratio_cell(double a, double b)
{
    cell(a < 0 || b <= 0 ? -1 : a / b, "");
}

static void row(const char *name, const List *l, const char *what, size_t count, const double t[3])
{
    printf("| %s | %zu | %s | %zu |", name, l->n, what, count);
    for (int k = 0; k < 3; k++)
        time_cell(t[k] < 0 ? -1 : t[k] / (double)count);
    ratio_cell(t[0], t[1]);
    ratio_cell(t[0], t[2]);
    printf("\n");
    fflush(stdout);
}

/* The three asked the same, so many times each; NULL where one has no such question. */
static void measure(const char *name, List *l, const char *what, size_t count, Run ours, Run rust, Run sdsl)
{
    const Run run[3] = {ours, l->original == NULL ? NULL : rust, l->sdsl == NULL ? NULL : sdsl};
    Times t = fastest(l, nothing, run);
    for (int k = 1; k < 3; k++)
        if (run[k] != NULL && t.sum[k] != t.sum[0]) {
            fprintf(stderr, "bench: %s %zu, %s: the sums of the answers differ\n", name, l->n, what);
            exit(1);
        }
    row(name, l, what, count, t.best);
}

/* A growth beside a build of the same list: that of the two others, and ours. */
static void measure_growth(const char *name, List *l)
{
    const Run growth[3] = {ours_growth, NULL, NULL};
    const Run build[3] = {ours_build, l->original == NULL ? NULL : original_again, l->sdsl == NULL ? NULL : sdsl_again};
    Times g = fastest(l, ours_shorter, growth), b = fastest(l, nothing, build);
    double step = g.best[0] / (double)l->steps;
    row(name, l, "growth by a node (Rust, sdsl: a build)", 1, (const double[3]){step, b.best[1], b.best[2]});
    printf("| %s | %zu | the same over our own build | 1 |", name, l->n);
    time_cell(step);
    printf(" - | - |");
    ratio_cell(step, b.best[0]);
    printf(" - |\n");
}

static void bytes_cell(double b)
{
    if (b < 0)
        printf(" - |");
    else
        printf(" %.0f |", b);
}

/* The bytes of the string and what is built upon it, without the labels. */
static void row_bytes(const char *name, List *l)
{
    tree_byte_size(&l->tree);
    double ours = (double)(l->tree.out[1] - 8 - 4 * l->n);
    double rust = l->original == NULL ? -1 : (double)(original_byte_size(l->original) - 8 - 4 * l->n);
    double sdsl = l->sdsl == NULL ? -1 : (double)sdsl_byte_size(l->sdsl);
    printf("| %s | %zu | bytes, without labels | 1 |", name, l->n);
    bytes_cell(ours);
    bytes_cell(rust);
    bytes_cell(sdsl);
    ratio_cell(ours, rust);
    ratio_cell(ours, sdsl);
    printf("\n");
}

static List list_of(Shape shape, size_t n)
{
    List l = {.levels = list_levels(shape, n), .labels = list_labels(n), .n = n};
    l.asked = n > 100000 ? 10000 : n + 1;
    l.steps = n > 10000 ? 4 : 50;
    l.plain = plain_of(l.levels, n);
    l.tree = tree_lend(n);
    l.original = original_here() ? original_build(l.levels, l.labels, n) : NULL;
    l.sdsl = sdsl_here() ? sdsl_build(l.levels, n) : NULL;
    l.out_levels = need(n * sizeof *l.out_levels);
    l.out_labels = need(n * sizeof *l.out_labels);
    return l;
}

static void list_end(List *l)
{
    free((void *)l->levels);
    free((void *)l->labels);
    free(l->out_levels);
    free(l->out_labels);
    plain_free(&l->plain);
    tree_return(&l->tree);
    if (l->original != NULL)
        original_free(l->original);
    if (l->sdsl != NULL)
        sdsl_free(l->sdsl);
}

static void bench(Shape shape, size_t n)
{
    const char *name = shape_names[shape];
    List l = list_of(shape, n);
    measure(name, &l, "build, a node", n, ours_build, original_again, sdsl_again);
    measure_growth(name, &l);
    measure(name, &l, "close of an open", n + 1, ours_closes, original_closes, sdsl_closes);
    measure(name, &l, "next sibling of a node", l.asked, ours_siblings, original_siblings, sdsl_siblings);
    measure(name, &l, "label (the id check alone)", l.asked, ours_labels, NULL, NULL);
    measure(name, &l, "leaf count of the root", 1, ours_leaves, NULL, NULL);
    if (l.asked == n + 1)
        measure(name, &l, "walk, a node", n, ours_walk, original_walks, sdsl_walks);
    else
        measure(name, &l, "child and sibling, as a walk asks", l.asked, ours_both, original_both, sdsl_both);
    row_bytes(name, &l);
    list_end(&l);
}

int main(int words, char **word)
{
    static const size_t sizes[] = {500, 10000, 100000, 1000000};
    int quick = words == 2 && strcmp(word[1], "--quick") == 0;
    if (words > 1 && !quick) {
        fprintf(stderr, "usage: bench [--quick]\n");
        return 2;
    }
    printf("| list | nodes | what | times | ours | Rust | sdsl | ours / Rust | ours / sdsl |\n");
    printf("|---|---|---|---|---|---|---|---|---|\n");
    for (size_t i = 0; i < (quick ? 2 : 4); i++)
        for (Shape s = 0; s < SHAPES; s++)
            bench(s, sizes[i]);
    return 0;
}
