/*
 * The paper (document 01, and the total and the valve of 02), written down once more in plain C, step by step and with
 * no thought of speed, to hold the archive against. It shares nothing with the crates: its tables are made here by long
 * double, its sums are 128 bits wide, and its whole runs are the calls one by one.
 *
 * Each function takes what the function of the archive takes, and returns its answer.
 */
#ifndef REFERENCE_H
#define REFERENCE_H

#include <stddef.h>
#include <stdint.h>

/* Makes the tables. 0, or the count of table numbers that lie too near a half to be sure of. */
int reference_tables(void);

/* Table numbers of a good width: s(m), t(m), C(m,n), and the secant at (m,n). */
int64_t reference_sine(size_t width, size_t m);
int64_t reference_tangent(size_t width, size_t m);
int64_t reference_cosine(size_t width, size_t m, size_t n);
int64_t reference_secant(size_t width, size_t m, size_t n);

/* v/d rounded, halves up. */
int64_t reference_rounded(int64_t v, int64_t d);

uint32_t reference_start(size_t width, int64_t *run, size_t run_length, size_t *place);
uint32_t reference_take(int64_t *run, size_t run_length, const int32_t *block, size_t block_length,
                        int32_t *frame, size_t frame_length, size_t *place);
uint32_t reference_finish(int64_t *run, size_t run_length, int32_t *frame, size_t frame_length, size_t *place);
uint32_t reference_back_take(int64_t *run, size_t run_length, const int32_t *frame, size_t frame_length,
                             int32_t *block, size_t block_length, size_t *place);
uint32_t reference_back_finish(int64_t *run, size_t run_length, size_t *place);
uint32_t reference_forward(size_t width, const int32_t *readings, size_t readings_length,
                           int32_t *frames, size_t frames_length, size_t *place);
uint32_t reference_back(size_t width, const int32_t *frames, size_t frames_length,
                        int32_t *readings, size_t readings_length, size_t *place);
uint32_t reference_stages(size_t width, const int32_t *folded, size_t folded_length,
                          int32_t *frame, size_t frame_length, size_t *place);
uint32_t reference_unstages(size_t width, const int32_t *frame, size_t frame_length,
                            int32_t *folded, size_t folded_length, size_t *place);
uint32_t reference_valve_ask(size_t width, int32_t position, int32_t count, const int32_t *block, size_t block_length,
                             int32_t *move, int32_t *ticket_count, size_t *place);
uint32_t reference_valve_make(int32_t *position, int32_t *count, int32_t move, int32_t ticket_count, size_t *place);

#endif
