/*
 * Calls of the archive, each held against the same call of the reference: the answer, the place, every number of
 * the record and of the output, the numbers beside the output, and that the input was left alone. What is lent
 * ends (or begins) at a page that cannot be touched, so a step beyond it stops the program.
 */
#ifndef COMPARE_H
#define COMPARE_H

#include <stdbool.h>
#include <stddef.h>
#include <stdint.h>

enum entry { START, TAKE, FINISH, BACK_TAKE, BACK_FINISH, FORWARD, BACK, STAGES, UNSTAGES, VALVE_ASK, VALVE_MAKE, ENTRIES };

/* Random numbers from a seed: 64 bits, one below n, and true once in n times. */
void seed(uint64_t from);
uint64_t next(void);
size_t below(size_t n);
bool once_in(size_t n);

/* Room for inputs and outputs of so many numbers. */
void make_room(size_t numbers);

/* Each returns the reference's answer, and leaves a record as the reference left it. */
uint32_t start(size_t width, int64_t *run, size_t run_length);

/* TAKE to BACK_FINISH. No input or output: NULL and 0. Where out is not NULL, what the output holds afterwards. */
uint32_t with_record(enum entry entry, int64_t *run, size_t run_length, const int32_t *input, size_t input_length,
                     int32_t *out, size_t output_length);

/* FORWARD to UNSTAGES. */
uint32_t with_width(enum entry entry, size_t width, const int32_t *input, size_t input_length, int32_t *out,
                    size_t output_length);

/* The valve's record and a ticket, whose numbers are lent one by one. An ask leaves its ticket where it answers 0. */
struct valve {
    int32_t position, count;
};

struct ticket {
    int32_t move, count;
};

uint32_t valve_ask(size_t width, struct valve valve, const int32_t *block, size_t block_length, struct ticket *ticket);
uint32_t valve_make(struct valve *valve, struct ticket ticket);

/* What holds of the calls by themselves, whatever the reference says. */
void expect(bool holds, const char *what);

/* The count of calls, by entry, answer and width. The number of differences; an answer that no call of its entry met is one too. */
uint64_t report(void);

#endif
