/* What a plain stack says of a level list; written apart from the tree. */
#ifndef PLAIN_H
#define PLAIN_H

#include <stddef.h>
#include <stdint.h>

typedef struct {
    size_t n, bits;
    uint8_t *open;    /* by place: 1 for an open */
    uint32_t *close;  /* by place: the close of an open */
    uint32_t *place;  /* by id: the place of the node; the root's is 0 */
    uint32_t *leaves; /* by place: the leaves that open before it */
} Plain;

Plain plain_of(const uint32_t *levels, size_t n);
void plain_free(Plain *s);

/* The id of the first child, or 0; the id of the next sibling, or 0. */
uint64_t plain_first_child(const Plain *s, uint64_t id);
uint64_t plain_next_sibling(const Plain *s, uint64_t id);

/* The nodes without children strictly below a node. */
uint64_t plain_leaf_count(const Plain *s, uint64_t id);

/* 01's byte size; or 0, and the lowest pioneer level and block whose 256 places are all flagged. */
uint64_t plain_byte_size(const Plain *s, uint64_t *full_level, uint64_t *full_block);

#endif
