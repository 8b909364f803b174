/* In the place of sdsl, where it is not to be had. */
#include "sdsl.h"

#include <stdlib.h>

uint64_t sdsl_here(void)
{
    return 0;
}

SdslTree *sdsl_build(const uint32_t *levels, size_t n)
{
    (void)levels, (void)n;
    abort();
}

void sdsl_free(SdslTree *tree)
{
    (void)tree;
    abort();
}

uint64_t sdsl_byte_size(const SdslTree *tree)
{
    (void)tree;
    abort();
}

uint64_t sdsl_close(const SdslTree *tree, uint64_t place)
{
    (void)tree, (void)place;
    abort();
}

uint64_t sdsl_first_child(const SdslTree *tree, uint64_t place, uint64_t id, uint64_t out[2])
{
    (void)tree, (void)place, (void)id, (void)out;
    abort();
}

uint64_t sdsl_next_sibling(const SdslTree *tree, uint64_t place, uint64_t id, uint64_t out[2])
{
    (void)tree, (void)place, (void)id, (void)out;
    abort();
}

uint64_t sdsl_walk(const SdslTree *tree, uint32_t *levels, size_t n)
{
    (void)tree, (void)levels, (void)n;
    abort();
}
