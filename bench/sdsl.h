/* bp_support_gg of the library sdsl behind a C interface (sdsl.cc), or sdsl_absent.c, where sdsl_here is 0 and nothing else may be called. */
#ifndef SDSL_H
#define SDSL_H

#include <stddef.h>
#include <stdint.h>

#ifdef __cplusplus
extern "C" {
#endif

typedef struct SdslTree SdslTree;

uint64_t sdsl_here(void);
SdslTree *sdsl_build(const uint32_t *levels, size_t n);
void sdsl_free(SdslTree *tree);

/* The bytes of the string and of its support. */
uint64_t sdsl_byte_size(const SdslTree *tree);

uint64_t sdsl_close(const SdslTree *tree, uint64_t place);

/* 1 and place, id; or 0. */
uint64_t sdsl_first_child(const SdslTree *tree, uint64_t place, uint64_t id, uint64_t out[2]);
uint64_t sdsl_next_sibling(const SdslTree *tree, uint64_t place, uint64_t id, uint64_t out[2]);

/* Levels along the walk, into a list of n elements; the nodes met. */
uint64_t sdsl_walk(const SdslTree *tree, uint32_t *levels, size_t n);

#ifdef __cplusplus
}
#endif

#endif
