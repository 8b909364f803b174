/* In the place of the original, where it cannot be built. */
#include "original.h"

#include <stdlib.h>

uint64_t original_here(void)
{
    return 0;
}

OriginalTree *original_build(const uint32_t *levels, const uint32_t *labels, size_t n)
{
    (void)levels, (void)labels, (void)n;
    abort();
}

void original_free(OriginalTree *tree)
{
    (void)tree;
    abort();
}

uint64_t original_byte_size(const OriginalTree *tree)
{
    (void)tree;
    abort();
}

uint64_t original_close(const OriginalTree *tree, uint64_t place)
{
    (void)tree, (void)place;
    abort();
}

uint64_t original_first_child(const OriginalTree *tree, uint64_t place, uint64_t id, uint64_t out[3])
{
    (void)tree, (void)place, (void)id, (void)out;
    abort();
}

uint64_t original_next_sibling(const OriginalTree *tree, uint64_t place, uint64_t id, uint64_t out[3])
{
    (void)tree, (void)place, (void)id, (void)out;
    abort();
}

uint64_t original_walk(const OriginalTree *tree, uint32_t *levels, uint32_t *labels, size_t n)
{
    (void)tree, (void)levels, (void)labels, (void)n;
    abort();
}

uint64_t original_area(const OriginalTree *tree, uint64_t area, uint64_t *out, size_t room)
{
    (void)tree, (void)area, (void)out, (void)room;
    abort();
}
