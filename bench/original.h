/* The original Rust behind a C interface (oracle/src/capi.rs), or original_absent.c, where original_here is 0 and nothing else may be called. */
#ifndef ORIGINAL_H
#define ORIGINAL_H

#include <stddef.h>
#include <stdint.h>

typedef struct OriginalTree OriginalTree;

uint64_t original_here(void);
OriginalTree *original_build(const uint32_t *levels, const uint32_t *labels, size_t n);
void original_free(OriginalTree *tree);
uint64_t original_byte_size(const OriginalTree *tree);

/* The close of an open. */
uint64_t original_close(const OriginalTree *tree, uint64_t place);

/* 1 and place, id, label; or 0. */
uint64_t original_first_child(const OriginalTree *tree, uint64_t place, uint64_t id, uint64_t out[3]);
uint64_t original_next_sibling(const OriginalTree *tree, uint64_t place, uint64_t id, uint64_t out[3]);

/* Levels and labels along the walk, into lists of n elements; the nodes met. */
uint64_t original_walk(const OriginalTree *tree, uint32_t *levels, uint32_t *labels, size_t n);

/* The content of an area over all levels, each element as a u64: 0 words, 1 bytes, 2 middle entries, 3 large entries; 9 the bits of each string. */
uint64_t original_area(const OriginalTree *tree, uint64_t area, uint64_t *out, size_t room);

#endif
