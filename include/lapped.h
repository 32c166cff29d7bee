/*
 * lapped.h - lapped integer coefficients of basis weight readings.
 *
 * A run of blocks of N readings (N is 8, 32 or 128) becomes frames of N coefficients, and goes back to exactly
 * the readings that it came from. A block can also ask for a move of the valve, which is then made. Link with
 * liblapped.a (`tests/archive` builds it), which needs memcpy and memset and nothing else. docs/C-API.md is the guide;
 * docs/PROMISES.md says what is proved.
 *
 * Every function
 *   - returns an answer, LAPPED_DONE or the number of the question that said no, and writes to *place the first
 *     place that was refused, counted from 0, or 0 where the question names no place;
 *   - stores nothing else where it refuses, at no moment: the run, the output, the valve's position and count, and
 *     the room for a ticket may lie where they can only be read (lapped_start says what it does);
 *   - takes any numbers, any lengths and any record, and neither fails nor stops;
 *   - keeps nothing: no allocation, no global state, no pointer after it returns. Calls in several threads are
 *     independent, as long as no two of them write the same memory.
 *
 * What a pointer must be: not NULL, even where its length is 0; aligned for its type; and valid for as many
 * numbers as its length says, one where it has none. What one call writes (run, output, place; move and ticket_count
 * of an ask, position and count of a make) must not overlap anything else that is handed to the same call. Lengths
 * count numbers, not bytes. All memory stays the caller's. No output, no *place, and neither *move nor *ticket_count
 * of an ask need be initialised; *position and *count of a make are read, and must be.
 */
#ifndef LAPPED_H
#define LAPPED_H

#include <stddef.h>
#include <stdint.h>

#ifdef __cplusplus
extern "C" {
#endif

/*
 * The project's version, which `lapped --version` tells too. 2: the record has a total, and one number more. A caller
 * that was compiled against version 1 hands in 67 numbers, and is refused with LAPPED_RECORD. 3: the valve's two
 * functions; a program compiled against version 2 goes on as it was.
 */
#define LAPPED_VERSION 3

/* The answers: 0, or the number of the question that said no. 13 to 16 are refusals of the text programs. */
enum lapped_answer {
    LAPPED_DONE = 0,
    LAPPED_WIDTH = 1,         /* the width is not 8, 32 or 128 */
    LAPPED_RECORD = 2,        /* the run record is not sound this way, or has not LAPPED_RUN_LENGTH numbers */
    LAPPED_CLOSED = 3,        /* the run is finished */
    LAPPED_FULL = 4,          /* the run has taken all the blocks or frames that it can take */
    LAPPED_EMPTY = 5,         /* finishing back: no frame has been taken */
    LAPPED_INPUT_LENGTH = 6,  /* the input has a wrong length */
    LAPPED_OUTPUT_LENGTH = 7, /* the output has a wrong length */
    LAPPED_DEAD_MARK = 8,     /* a reading is the gauge's dead mark, -32768; place: the first one */
    LAPPED_RANGE = 9,         /* a reading is beyond +-32767, a coefficient beyond +-1048576; place: the first one */
    LAPPED_FOLDED = 10,       /* a folded value is beyond +-50000; place: its folded place */
    LAPPED_HALVES = 11,       /* back: the first frame's upper half, or at the finish the held lower half, is not
                                 zero; place: the first folded place */
    LAPPED_UNFOLDED = 12,     /* back: a reading of the block would be beyond +-32767; place: the first one */
    LAPPED_LIMITS = 17,       /* the valve's position is not 0 to 10000, or its count not 0 to 1000000; in a make also:
                                 the move is beyond +-500, or would leave the travel */
    LAPPED_ALL_MADE = 18,     /* a move is to be made at count 1000000 */
    LAPPED_OTHER_COUNT = 19   /* the record's count is not the ticket's: it is used, or of another record */
};

enum {
    LAPPED_WIDTH_MAX = 128,           /* the widest block or frame */
    LAPPED_BLOCKS_MAX = 65536,        /* blocks that a run takes; it gives one frame more */
    LAPPED_DEAD_READING = -32768,     /* the gauge's dead mark */
    LAPPED_READING_MAX = 32767,       /* readings are from -32767 to 32767 */
    LAPPED_COEFFICIENT_MAX = 1048576, /* what the way back takes: -1048576 to 1048576 */
    LAPPED_FOLDED_MAX = 50000,        /* folded values are from -50000 to 50000 */
    LAPPED_VALVE_TRAVEL = 10000,      /* the valve's position is from 0 to 10000 steps */
    LAPPED_MOVE_MAX = 500,            /* a move is from -500 to 500 steps */
    LAPPED_MOVES_MAX = 1000000        /* moves that a valve record counts */
};

/*
 * The run record: int64_t run[LAPPED_RUN_LENGTH], owned by the caller, one for each run. lapped_start fills it,
 * and every call that works changes it. It may be copied, kept and read; the numbers at these places are:
 */
enum {
    LAPPED_RUN_LENGTH = 68,
    LAPPED_RUN_WIDTH = 0,    /* N */
    LAPPED_RUN_COUNT = 1,    /* blocks taken forward, frames taken back */
    LAPPED_RUN_FINISHED = 2, /* 1 after a finish that worked, else 0 */
    LAPPED_RUN_HELD = 3,     /* 64 held values, from here on */
    LAPPED_RUN_TOTAL = 67    /* the exact sum of the readings taken forward, or given back */
};

/*
 * The total: 0 after a start, refused or not. A block that is taken adds its N readings. Going back the first frame
 * adds nothing, and each later one adds the N readings that it gives. A finish keeps the total, and a refused call
 * leaves it as it was. On a run from a start it never leaves +-274869518336, which is LAPPED_BLOCKS_MAX * 128 * 32767.
 *
 * Each call asks by its way whether the total is at most blocks * N * 32767 in size, finished or not, and refuses with
 * LAPPED_RECORD if it is not: forward the blocks are the count, back the count less one, or none at count 0. A record
 * does not say which way it goes. One that has taken a block forward, with total 100, is refused by the functions back,
 * since a single frame gives no block; one whose total fits both ways is taken.
 */

/*
 * Start a run of a width, forward or back.
 *   run: run_length is LAPPED_RUN_LENGTH. Filled with an open record that has taken nothing, of total 0; its numbers
 *   before the call do not matter.
 * Answers LAPPED_WIDTH, and then the record is of width 0, which every other call refuses; LAPPED_RECORD where
 * run_length is another number, and then nothing is written.
 */
uint32_t lapped_start(size_t width, int64_t *run, size_t run_length, size_t *place);

/*
 * Take a block forward, and give its frame.
 *   block: N readings. frame: N coefficients, written.
 * Answers LAPPED_RECORD, CLOSED, FULL, INPUT_LENGTH, OUTPUT_LENGTH, DEAD_MARK or RANGE, asked in this order.
 */
uint32_t lapped_take(int64_t *run, size_t run_length,
                     const int32_t *block, size_t block_length,
                     int32_t *frame, size_t frame_length, size_t *place);

/*
 * Finish a run forward: give its last frame, and close it. The count and the total stay.
 *   frame: N coefficients, written.
 * Answers LAPPED_RECORD, CLOSED or OUTPUT_LENGTH.
 */
uint32_t lapped_finish(int64_t *run, size_t run_length, int32_t *frame, size_t frame_length, size_t *place);

/*
 * Take a frame back, and give the block before it. The first frame of a run has none: its call writes no
 * output, though the output's length is asked all the same.
 *   frame: N coefficients. block: N readings, written from the second frame on.
 * Answers LAPPED_RECORD, CLOSED, FULL, INPUT_LENGTH, OUTPUT_LENGTH, RANGE, FOLDED, then HALVES for the first
 * frame or UNFOLDED for a later one.
 */
uint32_t lapped_back_take(int64_t *run, size_t run_length,
                          const int32_t *frame, size_t frame_length,
                          int32_t *block, size_t block_length, size_t *place);

/*
 * Finish a run back: close it, if its frames were all there. The total is then that of the run forward.
 * Answers LAPPED_RECORD, CLOSED, EMPTY or HALVES.
 */
uint32_t lapped_back_finish(int64_t *run, size_t run_length, size_t *place);

/*
 * A whole run forward. It has no record, and tells no total.
 *   readings: b * N of them, b from 0 to LAPPED_BLOCKS_MAX. frames: (b + 1) * N coefficients, written.
 * Answers LAPPED_WIDTH, INPUT_LENGTH, OUTPUT_LENGTH, DEAD_MARK or RANGE; place counts through the run.
 */
uint32_t lapped_forward(size_t width,
                        const int32_t *readings, size_t readings_length,
                        int32_t *frames, size_t frames_length, size_t *place);

/*
 * A whole run back, to exactly the readings that its frames came from; frames that no readings make are refused.
 *   frames: (b + 1) * N coefficients, b from 0 to LAPPED_BLOCKS_MAX. readings: b * N of them, written.
 * Answers LAPPED_WIDTH, INPUT_LENGTH, OUTPUT_LENGTH, RANGE, FOLDED, HALVES or UNFOLDED; place counts through the
 * frames, and for UNFOLDED through the readings. Every frame is asked before a number is written: two passes.
 */
uint32_t lapped_back(size_t width,
                     const int32_t *frames, size_t frames_length,
                     int32_t *readings, size_t readings_length, size_t *place);

/*
 * The five stages alone, without the window: N folded values to the N coefficients of their frame, and back.
 *   folded and frame: N numbers each.
 * lapped_stages answers LAPPED_WIDTH, INPUT_LENGTH, OUTPUT_LENGTH or FOLDED; lapped_unstages LAPPED_WIDTH,
 * INPUT_LENGTH, OUTPUT_LENGTH, RANGE or FOLDED (of a value that comes out).
 */
uint32_t lapped_stages(size_t width,
                       const int32_t *folded, size_t folded_length,
                       int32_t *frame, size_t frame_length, size_t *place);
uint32_t lapped_unstages(size_t width,
                         const int32_t *frame, size_t frame_length,
                         int32_t *folded, size_t folded_length, size_t *place);

/*
 * The valve. Its record is two numbers of the caller's: the position in steps, from 0 to LAPPED_VALVE_TRAVEL, and the
 * count of moves made, from 0 to LAPPED_MOVES_MAX. A ticket is two numbers too: a move, and the count of the record
 * that it was asked for. A make that works raises the record's count, so that no ticket is taken twice.
 */

/*
 * Ask for the move that a block wants, and give its ticket. The record is not changed.
 *   block: N readings. *move and *ticket_count: the ticket, written. They mean something only where the ask answers 0:
 *   refused, it writes *place alone, and what stood there before still stands there.
 * The move is the block's total divided by N, cut toward zero and negated, held within +-LAPPED_MOVE_MAX, then held
 * so that the position stays within its travel. At count LAPPED_MOVES_MAX a ticket is still given.
 * Answers LAPPED_WIDTH, INPUT_LENGTH, DEAD_MARK, RANGE or LIMITS (of position and count), asked in this order.
 */
uint32_t lapped_valve_ask(size_t width, int32_t position, int32_t count,
                          const int32_t *block, size_t block_length,
                          int32_t *move, int32_t *ticket_count, size_t *place);

/*
 * Make the move of a ticket: the position takes it, and the count rises by one.
 *   *position and *count: the record, read, and written where the make answers 0; refused, it writes *place alone.
 *   move and ticket_count: the ticket. One that was made by hand within the limits is taken.
 * Answers LAPPED_LIMITS, ALL_MADE or OTHER_COUNT, asked in this order.
 */
uint32_t lapped_valve_make(int32_t *position, int32_t *count, int32_t move, int32_t ticket_count, size_t *place);

#ifdef __cplusplus
}
#endif

#endif
