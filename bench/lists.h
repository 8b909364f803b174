/* Level lists by shape, always the same. */
#ifndef LISTS_H
#define LISTS_H

#include <stddef.h>
#include <stdint.h>

typedef enum { FLAT, CHAIN, COMB, WALK, UNIFORM, SHAPES } Shape;

extern const char *const shape_names[SHAPES];

/* n elements, to be freed. */
uint32_t *list_levels(Shape shape, size_t n);
uint32_t *list_labels(size_t n);

/* 01's list that fills blocks with flags, behind `flat` nodes of level 0: levels 0 to top, then 32 nodes of each down to 0. */
uint32_t *list_pyramid(size_t flat, uint32_t top, size_t *n);

/* The list of a `treew` line of testdata: a number of nodes n, then the words of its string. Frees nothing it did not make; NULL if there is none. */
uint32_t *list_recorded(const char *path, size_t *n);

/* malloc that ends the program. */
void *need(size_t bytes);

#endif
