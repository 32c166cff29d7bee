/*
 * Plain C of the same method, to measure the archive against: the same steps and the same table numbers, with
 * matrices made ready beforehand and no question asked. plain.c is compiled once for each set of flags, each time
 * under the name that PEER gives.
 */
#ifndef PLAIN_H
#define PLAIN_H

#include <stddef.h>
#include <stdint.h>

struct plain {
    int width, half, root; /* N, M, and the bits of the square root of M */
    int64_t tangent[64], sine[64], cosine[64 * 64], secant[64 * 64];
};

struct peer {
    const char *flags;
    void (*start)(struct plain *p, int width);
    /* held: M values, zeros before the first block */
    void (*take)(const struct plain *p, int64_t *held, const int32_t *block, int32_t *frame);
    /* the block before the frame, and nothing for the first frame */
    void (*back_take)(const struct plain *p, int64_t *held, int first, const int32_t *frame, int32_t *block);
    /* the sum of a block, which calls block by block add to the total; whole runs have none */
    int64_t (*sum)(const struct plain *p, const int32_t *block);
    void (*forward)(const struct plain *p, const int32_t *readings, size_t blocks, int32_t *frames);
    void (*back)(const struct plain *p, const int32_t *frames, size_t blocks, int32_t *readings);
};

extern const struct peer plain_O2, plain_O3, plain_native;

#endif
