/*
 * What is handed to a call: widths, lengths, and numbers in and out of range, by chance.
 */
#ifndef INPUTS_H
#define INPUTS_H

#include <stddef.h>
#include <stdint.h>

/* From -limit to limit. */
int32_t within(int32_t limit);

size_t good_width(void);
size_t bad_width(void);

/* Another length than n. */
size_t off_by_one(size_t n);

/* Numbers within a limit: anywhere, small, at the edges, few, all alike, or by turns of sign. */
void fill(int32_t *x, size_t count, int32_t limit);

/* A few numbers out of range. */
void damage(int32_t *x, size_t count, int32_t limit);

/* One of the numbers a little off. */
void nudge(int32_t *x, size_t count);

#endif
