/*
 * Holds the archive against tests/reference.c, call by call and number for number: random, extreme, aimed and
 * damaged calls of every function, at every width, both ways.
 *
 *     differential [SEED]
 */
#include "aimed.h"
#include "compare.h"
#include "inputs.h"
#include "lapped.h"
#include "reference.h"
#include "valve.h"

#include <inttypes.h>
#include <stdio.h>
#include <stdlib.h>
#include <string.h>

enum { WIDEST = LAPPED_WIDTH_MAX, BLOCKS = 12, WHOLE = (BLOCKS + 2) * WIDEST };

/* ---- records that are handed in */

/* the limit of the total at a record's own count, or at one block more or less, and near it; of either sign */
static int64_t near_limit(const int64_t *run)
{
    int64_t blocks = (int64_t)((uint64_t)run[LAPPED_RUN_COUNT] % 65540) + within(1);
    int64_t total = blocks * (int64_t)((uint64_t)run[LAPPED_RUN_WIDTH] % 129) * LAPPED_READING_MAX + within(1);

    return once_in(2) ? total : -total;
}

static void damage_record(int64_t *run)
{
    static const size_t places[4] = {LAPPED_RUN_WIDTH, LAPPED_RUN_COUNT, LAPPED_RUN_FINISHED, LAPPED_RUN_TOTAL};
    static const int64_t odd[] = {-1, 0, 1, 2, 3, 7, 8, 9, 32, 33, 64, 128, 129, 50000, -50000, 50001, -50001, 65535, 65536, 65537,
                                  65538, INT64_MIN, INT64_MAX, INT64_MIN + 8, (int64_t)1 << 32, ((int64_t)1 << 32) + 8};
    size_t times = once_in(4) ? 2 : 1;

    while (times-- > 0) {
        size_t at = once_in(3) ? LAPPED_RUN_HELD + below(64) : places[below(4)];

        if (at == LAPPED_RUN_TOTAL && below(4) != 0)
            run[at] = near_limit(run);
        else
            run[at] = once_in(16) ? (int64_t)next() : odd[below(sizeof odd / sizeof *odd)];
    }
}

/* ---- the five stages alone */

static void stages_alone(size_t times)
{
    int32_t in[WIDEST + 1], out[WIDEST + 1], again[WIDEST + 1];

    while (times-- > 0) {
        size_t N = once_in(20) ? bad_width() : good_width(), n = N <= WIDEST ? N : 8;
        size_t given = once_in(20) ? off_by_one(n) : n, room = once_in(20) ? off_by_one(n) : n;

        if (once_in(3)) {
            fill(in, given, LAPPED_COEFFICIENT_MAX);
            if (once_in(2))
                damage(in, given, LAPPED_COEFFICIENT_MAX);
            with_width(UNSTAGES, N, in, given, NULL, room);
            continue;
        }
        fill(in, given, LAPPED_FOLDED_MAX);
        if (once_in(8))
            damage(in, given, LAPPED_FOLDED_MAX);
        if (with_width(STAGES, N, in, given, out, room) != LAPPED_DONE)
            continue;
        /* what comes of it goes back to it; and a little off */
        expect(with_width(UNSTAGES, N, out, N, again, N) == LAPPED_DONE, "the stages are not undone");
        expect(memcmp(again, in, N * sizeof *in) == 0, "the stages go back to other values");
        nudge(out, N);
        with_width(UNSTAGES, N, out, N, NULL, N);
    }
}

/* ---- runs, call by call */

struct kept {
    int32_t blocks[BLOCKS][WIDEST], frames[BLOCKS + 1][WIDEST];
    size_t count, width;
    int64_t total;
};

static int64_t sum_of(const int32_t *x, size_t count)
{
    int64_t sum = 0;
    size_t i;

    for (i = 0; i < count; i++)
        sum += x[i];
    return sum;
}

static void total_is(const int64_t *run, int64_t total)
{
    expect(run[LAPPED_RUN_TOTAL] == total, "the total is not that of the readings");
}

/* takes some blocks, with refused calls between, and finishes: the blocks taken and the frames given */
static void run_forward(struct kept *k)
{
    int64_t run[LAPPED_RUN_LENGTH];
    int32_t block[WIDEST + 1];
    size_t blocks = below(BLOCKS), N = k->width, i;

    for (i = 0; i < LAPPED_RUN_LENGTH; i++)
        run[i] = (int64_t)next();
    start(N, run, LAPPED_RUN_LENGTH);
    k->count = 0;
    k->total = 0;
    while (k->count < blocks) {
        size_t given = once_in(12) ? off_by_one(N) : N, out = once_in(12) ? off_by_one(N) : N;
        int32_t frame[WIDEST + 1];

        fill(block, given, LAPPED_READING_MAX);
        if (once_in(6))
            damage(block, given, LAPPED_READING_MAX);
        total_is(run, k->total);
        if (with_record(TAKE, run, LAPPED_RUN_LENGTH, block, given, frame, out) != LAPPED_DONE)
            continue;
        k->total += sum_of(block, N);
        memcpy(k->blocks[k->count], block, N * sizeof *block);
        memcpy(k->frames[k->count++], frame, N * sizeof *frame);
    }
    if (once_in(4))
        with_record(FINISH, run, LAPPED_RUN_LENGTH, NULL, 0, NULL, off_by_one(N));
    expect(with_record(FINISH, run, LAPPED_RUN_LENGTH, NULL, 0, k->frames[k->count], N) == LAPPED_DONE, "a run does not finish");
    if (once_in(4)) {
        fill(block, N, LAPPED_READING_MAX);
        with_record(TAKE, run, LAPPED_RUN_LENGTH, block, N, NULL, N);
        with_record(FINISH, run, LAPPED_RUN_LENGTH, NULL, 0, NULL, N);
        with_record(BACK_FINISH, run, LAPPED_RUN_LENGTH, NULL, 0, NULL, 0);
    }
    total_is(run, k->total);
}

/* the very frames back, each with refused calls before it: the very blocks, and their total */
static void run_back(const struct kept *k)
{
    int64_t run[LAPPED_RUN_LENGTH] = {0}, total = 0;
    int32_t frame[WIDEST + 1], block[WIDEST + 1];
    size_t f, N = k->width;

    start(N, run, LAPPED_RUN_LENGTH);
    if (once_in(4))
        with_record(BACK_FINISH, run, LAPPED_RUN_LENGTH, NULL, 0, NULL, 0);
    for (f = 0; f <= k->count; f++) {
        if (once_in(8)) {
            size_t given = off_by_one(N);

            fill(frame, given, 1000);
            with_record(BACK_TAKE, run, LAPPED_RUN_LENGTH, frame, given, NULL, N);
            with_record(BACK_TAKE, run, LAPPED_RUN_LENGTH, k->frames[f], N, NULL, off_by_one(N));
        }
        if (once_in(8)) {
            memcpy(frame, k->frames[f], N * sizeof *frame);
            damage(frame, N, LAPPED_COEFFICIENT_MAX);
            with_record(BACK_TAKE, run, LAPPED_RUN_LENGTH, frame, N, NULL, N);
        }
        expect(with_record(BACK_TAKE, run, LAPPED_RUN_LENGTH, k->frames[f], N, block, N) == LAPPED_DONE, "a frame is not taken back");
        expect(f == 0 || memcmp(block, k->blocks[f - 1], N * sizeof *block) == 0, "another block comes back");
        total += f == 0 ? 0 : sum_of(k->blocks[f - 1], N);
        total_is(run, total);
    }
    expect(with_record(BACK_FINISH, run, LAPPED_RUN_LENGTH, NULL, 0, NULL, 0) == LAPPED_DONE, "a run back does not finish");
    if (once_in(4)) {
        with_record(BACK_TAKE, run, LAPPED_RUN_LENGTH, k->frames[0], N, NULL, N);
        with_record(BACK_FINISH, run, LAPPED_RUN_LENGTH, NULL, 0, NULL, 0);
    }
    total_is(run, k->total);
}

/* frames that were changed, left out or exchanged */
static void run_back_changed(const struct kept *k)
{
    int64_t run[LAPPED_RUN_LENGTH] = {0};
    int32_t frame[WIDEST];
    size_t f, N = k->width;

    start(N, run, LAPPED_RUN_LENGTH);
    for (f = 0; f <= k->count; f++) {
        memcpy(frame, k->frames[once_in(4) ? below(k->count + 1) : f], sizeof frame);
        if (once_in(3))
            nudge(frame, N);
        with_record(BACK_TAKE, run, LAPPED_RUN_LENGTH, frame, N, NULL, N);
    }
    with_record(BACK_FINISH, run, LAPPED_RUN_LENGTH, NULL, 0, NULL, 0);
}

static void runs(size_t times)
{
    static struct kept kept;

    while (times-- > 0) {
        kept.width = good_width();
        run_forward(&kept);
        run_back(&kept);
        run_back_changed(&kept);
    }
}

/* ---- damaged records, and records of another length */

static void records(size_t times)
{
    static int64_t sound[LAPPED_RUN_LENGTH + 1], run[LAPPED_RUN_LENGTH + 1];
    int32_t in[WIDEST + 1];

    while (times-- > 0) {
        size_t N = good_width(), length = once_in(12) ? below(LAPPED_RUN_LENGTH + 2) : LAPPED_RUN_LENGTH;
        size_t i, given, steps = below(3);

        for (i = 0; i < length; i++)
            run[i] = (int64_t)next();
        start(once_in(4) ? bad_width() : N, run, length);
        start(N, sound, LAPPED_RUN_LENGTH);
        for (i = 0; i < steps; i++) {
            fill(in, N, LAPPED_READING_MAX);
            with_record(TAKE, sound, LAPPED_RUN_LENGTH, in, N, NULL, N);
        }
        memcpy(run, sound, sizeof run);
        for (i = 0; i < 4; i++) {
            if (once_in(2))
                memcpy(run, sound, sizeof run);
            damage_record(run);
            given = once_in(4) ? (size_t)run[0] % (WIDEST + 1) : N;
            fill(in, given, once_in(2) ? 1000 : LAPPED_READING_MAX);
            with_record((enum entry)(TAKE + below(4)), run, length, in, given, NULL, given);
        }
    }
}

/* ---- whole runs */

static void whole_runs(size_t times)
{
    static int32_t readings[WHOLE + 1], frames[WHOLE + 1], again[WHOLE + 1];

    while (times-- > 0) {
        size_t N = good_width(), n = below(BLOCKS) * N, i;

        for (i = 0; i < n; i += N)
            fill(readings + i, N, LAPPED_READING_MAX);
        if (once_in(3)) {
            size_t width = once_in(4) ? bad_width() : N, in = once_in(2) ? n : n + below(N), out = once_in(2) ? in + N : off_by_one(in + N);

            damage(readings, in, LAPPED_READING_MAX);
            with_width(FORWARD, width, readings, in, NULL, out);
            with_width(BACK, width, readings, out > WHOLE ? N : out, NULL, once_in(2) ? in : off_by_one(in));
            continue;
        }
        expect(with_width(FORWARD, N, readings, n, frames, n + N) == LAPPED_DONE, "a whole run does not work");
        expect(with_width(BACK, N, frames, n + N, again, n) == LAPPED_DONE, "a whole run does not go back");
        expect(memcmp(again, readings, n * sizeof *again) == 0, "a whole run goes back to other readings");
        /* changed, cut off at either end, or exchanged */
        switch (below(5)) {
        case 0: nudge(frames, n + N); break;
        case 1: damage(frames, n + N, LAPPED_COEFFICIENT_MAX); break;
        case 2: memmove(frames, frames + N, n * sizeof *frames); break;
        case 3: memset(frames + n, 0, N * sizeof *frames); break;
        default: memcpy(frames + below(n / N + 1) * N, readings, N * sizeof *frames); break;
        }
        with_width(BACK, N, frames, n + N, NULL, n);
        if (n > 0)
            with_width(BACK, N, frames, n, NULL, n - N);
    }
}

/* ---- the longest run: 65,536 blocks */

static void longest(size_t N)
{
    size_t n = LAPPED_BLOCKS_MAX * N, i;
    int32_t *readings = malloc((n + N) * sizeof *readings), *frames = malloc((n + 2 * N) * sizeof *frames);
    int32_t *again = malloc((n + N) * sizeof *again), block[WIDEST];
    int64_t run[LAPPED_RUN_LENGTH] = {0};

    if (readings == NULL || frames == NULL || again == NULL) {
        perror("longest");
        exit(2);
    }
    for (i = 0; i < n + N; i += N)
        fill(readings + i, N, LAPPED_READING_MAX);
    start(N, run, LAPPED_RUN_LENGTH);
    for (i = 0; i < n; i += N)
        expect(with_record(TAKE, run, LAPPED_RUN_LENGTH, readings + i, N, frames + i, N) == LAPPED_DONE, "a block of the longest run");
    expect(with_record(TAKE, run, LAPPED_RUN_LENGTH, readings + n, N, NULL, N) == LAPPED_FULL, "one block more");
    expect(with_record(FINISH, run, LAPPED_RUN_LENGTH, NULL, 0, frames + n, N) == LAPPED_DONE, "its finish");
    total_is(run, sum_of(readings, n));
    start(N, run, LAPPED_RUN_LENGTH);
    for (i = 0; i <= n; i += N) {
        expect(with_record(BACK_TAKE, run, LAPPED_RUN_LENGTH, frames + i, N, block, N) == LAPPED_DONE, "a frame of the longest run");
        expect(i == 0 || memcmp(block, readings + i - N, N * sizeof *block) == 0, "its block");
    }
    expect(with_record(BACK_TAKE, run, LAPPED_RUN_LENGTH, frames, N, NULL, N) == LAPPED_FULL, "one frame more");
    expect(with_record(BACK_FINISH, run, LAPPED_RUN_LENGTH, NULL, 0, NULL, 0) == LAPPED_DONE, "its finish back");
    total_is(run, sum_of(readings, n));
    expect(with_width(FORWARD, N, readings, n, again, n + N) == LAPPED_DONE, "the longest whole run");
    expect(memcmp(again, frames, (n + N) * sizeof *again) == 0, "its frames, whole and one by one");
    expect(with_width(BACK, N, frames, n + N, again, n) == LAPPED_DONE, "the longest whole run back");
    expect(memcmp(again, readings, n * sizeof *again) == 0, "its readings");
    memset(frames + n + N, 0, N * sizeof *frames);
    with_width(FORWARD, N, readings, n + N, NULL, n + 2 * N);
    with_width(BACK, N, frames, n + 2 * N, NULL, n + N);
    free(readings);
    free(frames);
    free(again);
}

int main(int count, char **words)
{
    uint64_t from = count > 1 ? strtoull(words[1], NULL, 0) : 20261115;
    int doubtful = reference_tables();

    printf("seed %" PRIu64 "\n", from);
    if (doubtful != 0) {
        printf("%d table numbers of the reference are too near a half\n", doubtful);
        return 2;
    }
    seed(from);
    make_room((LAPPED_BLOCKS_MAX + 3) * 8);
    stages_alone(120000);
    aimed();
    runs(12000);
    records(60000);
    whole_runs(40000);
    longest(8);
    valve_calls();
    return report() != 0;
}
