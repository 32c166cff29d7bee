/*
 * The archive beside plain C of the same method, in one run: nanoseconds a reading, forward and back, for whole runs
 * and block by block, and how they grow with the run's length and with the width. Each figure is the best of many
 * rounds of processor time, the archive and its peers taking turns; before a row is timed, all of them are seen to
 * give the same numbers, so every page has been touched.
 */
#define _POSIX_C_SOURCE 199309L
#include "lapped.h"
#include "plain.h"

#include <stdio.h>
#include <stdlib.h>
#include <string.h>
#include <time.h>

/* a round is some milliseconds, and the passes lie apart, so that each figure has rounds that nothing disturbed */
enum { PEERS = 3, PASSES = 8, ROUNDS = 3, READINGS = 1 << 15, LENGTHS = 9, LONGEST = 1 << 20, ROWS = 15 + 6 * LENGTHS };

static const struct peer *const peers[PEERS] = {&plain_O2, &plain_O3, &plain_native};
static const size_t widths[3] = {8, 32, 128};

struct work {
    size_t width, blocks;
    int32_t *readings, *frames, *out;
    int64_t total; /* of the last run block by block */
    struct plain plain;
};

static double now(void)
{
    struct timespec t;

    clock_gettime(CLOCK_PROCESS_CPUTIME_ID, &t);
    return (double)t.tv_sec * 1e9 + (double)t.tv_nsec;
}

static void must(int holds, const char *what)
{
    if (holds)
        return;
    printf("%s\n", what);
    exit(1);
}

/* ---- the four ways to go, by the archive (no peer) or by a peer */

static void whole_forward(struct work *w, const struct peer *peer)
{
    size_t n = w->blocks * w->width, place;

    if (peer != NULL)
        peer->forward(&w->plain, w->readings, w->blocks, w->out);
    else
        must(lapped_forward(w->width, w->readings, n, w->out, n + w->width, &place) == LAPPED_DONE, "forward is refused");
}

static void whole_back(struct work *w, const struct peer *peer)
{
    size_t n = w->blocks * w->width, place;

    if (peer != NULL)
        peer->back(&w->plain, w->frames, w->blocks, w->out);
    else
        must(lapped_back(w->width, w->frames, n + w->width, w->out, n, &place) == LAPPED_DONE, "back is refused");
}

static void blocks_forward(struct work *w, const struct peer *peer)
{
    static const int32_t zeros[LAPPED_WIDTH_MAX];
    int64_t run[LAPPED_RUN_LENGTH] = {0};
    size_t N = w->width, n = w->blocks * N, place, at;
    uint32_t refused = 0;

    if (peer == NULL)
        refused |= lapped_start(N, run, LAPPED_RUN_LENGTH, &place);
    for (at = 0; at < n; at += N)
        if (peer != NULL) {
            peer->take(&w->plain, run, w->readings + at, w->out + at);
            run[LAPPED_RUN_TOTAL] += peer->sum(&w->plain, w->readings + at);
        } else
            refused |= lapped_take(run, LAPPED_RUN_LENGTH, w->readings + at, N, w->out + at, N, &place);
    if (peer != NULL)
        peer->take(&w->plain, run, zeros, w->out + n);
    else
        refused |= lapped_finish(run, LAPPED_RUN_LENGTH, w->out + n, N, &place);
    must(refused == 0, "a block is refused");
    w->total = run[LAPPED_RUN_TOTAL];
}

static void blocks_back(struct work *w, const struct peer *peer)
{
    int64_t run[LAPPED_RUN_LENGTH] = {0};
    size_t N = w->width, n = w->blocks * N, place, at;
    uint32_t refused = 0;

    if (peer == NULL)
        refused |= lapped_start(N, run, LAPPED_RUN_LENGTH, &place);
    for (at = 0; at <= n; at += N) {
        int32_t *block = at == 0 ? w->out : w->out + at - N;

        if (peer != NULL) {
            peer->back_take(&w->plain, run, at == 0, w->frames + at, block);
            run[LAPPED_RUN_TOTAL] += at == 0 ? 0 : peer->sum(&w->plain, block);
        } else
            refused |= lapped_back_take(run, LAPPED_RUN_LENGTH, w->frames + at, N, block, N, &place);
    }
    if (peer == NULL)
        refused |= lapped_back_finish(run, LAPPED_RUN_LENGTH, &place);
    must(refused == 0, "a frame is refused");
    w->total = run[LAPPED_RUN_TOTAL];
}

typedef void going(struct work *w, const struct peer *peer);

/* ---- time */

static struct work prepared(size_t width, size_t blocks)
{
    uint64_t state = 88172645463325252u;
    struct work w;
    size_t n = blocks * width, i;

    w.width = width;
    w.blocks = blocks;
    w.total = 0;
    w.readings = malloc((n + width) * sizeof *w.readings);
    w.frames = malloc((n + width) * sizeof *w.frames);
    w.out = malloc((n + width) * sizeof *w.out);
    must(w.readings != NULL && w.frames != NULL && w.out != NULL, "no memory");
    for (i = 0; i < n + width; i++) {
        state ^= state << 13;
        state ^= state >> 7;
        state ^= state << 17;
        w.readings[i] = (int32_t)(state % 65535) - 32767;
        w.frames[i] = w.out[i] = -1;
    }
    peers[0]->start(&w.plain, (int)width);
    peers[0]->forward(&w.plain, w.readings, blocks, w.frames);
    return w;
}

static void release(struct work *w)
{
    free(w->readings);
    free(w->frames);
    free(w->out);
}

/* all give the same numbers, and block by block the same total */
static void check(struct work *w, going *go, int back)
{
    size_t n = w->blocks * w->width, at;
    int64_t total = 0;
    int i;

    for (at = 0; at < n; at++)
        total += w->readings[at];
    for (i = -1; i < PEERS; i++) {
        memset(w->out, 1, (n + w->width) * sizeof *w->out);
        w->total = total + 1;
        go(w, i < 0 ? NULL : peers[i]);
        must(go == whole_forward || go == whole_back || w->total == total, "the totals differ");
        if (back)
            must(memcmp(w->out, w->readings, n * sizeof *w->out) == 0, "another run comes back");
        else
            must(memcmp(w->out, w->frames, (n + w->width) * sizeof *w->out) == 0, "the frames differ");
    }
}

/* ---- the figures */

struct row {
    size_t width, blocks;
    going *go;
    int back, with_peers;
    double best[PEERS + 1]; /* nanoseconds a reading: the archive's, then the peers' */
};

static void measure(struct row *row)
{
    struct work w = prepared(row->width, row->blocks);
    /* short runs many times over, long ones once */
    size_t n = row->blocks * row->width, times = n < READINGS ? READINGS / n : 1, k;
    int rounds = n > 4 * READINGS ? 1 : ROUNDS, round, turn, of = row->with_peers ? PEERS + 1 : 1;

    check(&w, row->go, row->back);
    for (round = 0; round < rounds; round++)
        for (turn = 0; turn < of; turn++) {
            /* there and back, so that none always follows the same one: some instructions slow the machine for a while */
            int i = round % 2 == 0 ? turn : of - 1 - turn;
            double from, took;

            from = now();
            for (k = 0; k < times; k++)
                row->go(&w, i == 0 ? NULL : peers[i - 1]);
            took = (now() - from) / (double)(times * n);
            if (row->best[i] == 0 || took < row->best[i])
                row->best[i] = took;
        }
    release(&w);
}

static struct row rows[ROWS];
static size_t count;

static struct row *add(size_t width, size_t blocks, going *go, int back, int with_peers)
{
    struct row *row = &rows[count++];

    must(count <= ROWS, "too many rows");
    row->width = width;
    row->blocks = blocks;
    row->go = go;
    row->back = back;
    row->with_peers = with_peers;
    return row;
}

static void print_compared(const char *title, struct row *const *of)
{
    int r, i;

    printf("\n%s: nanoseconds a reading, and in brackets the archive's over the peer's\n%14s%10s", title, "", "archive");
    for (i = 0; i < PEERS; i++)
        printf("%21s", peers[i]->flags);
    printf("\n");
    for (r = 0; r < 6; r++) {
        printf("%4zu %-9s%10.2f", of[r]->width, of[r]->back ? "back" : "forward", of[r]->best[0]);
        for (i = 1; i <= PEERS; i++)
            printf("%12.2f (%6.2f)", of[r]->best[i], of[r]->best[0] / of[r]->best[i]);
        printf("\n");
    }
}

/* what the ways cost beside each other, in the archive alone */
static void print_ways(struct row *const *whole, struct row *const *blocks)
{
    size_t w;

    printf("\nwhole runs back over forward, and block by block over the whole run forward\n");
    for (w = 0; w < 3; w++)
        printf("%4zu %19.2f %12.2f forward %8.2f back\n", whole[2 * w]->width, whole[2 * w + 1]->best[0] / whole[2 * w]->best[0],
               blocks[2 * w]->best[0] / whole[2 * w]->best[0], blocks[2 * w + 1]->best[0] / whole[2 * w]->best[0]);
}

static void print_by_width(struct row *const *of)
{
    int way, i, w;

    printf("\nby the width: a reading's cost at 8, 32 and 128 over its cost at 8, whole runs\n");
    for (way = 0; way < 2; way++)
        for (i = 0; i <= PEERS; i++) {
            printf("%-9s%-18s", way == 0 ? "forward" : "back", i == 0 ? "archive" : peers[i - 1]->flags);
            for (w = 0; w < 3; w++)
                printf("%8.2f", of[2 * w + way]->best[i] / of[way]->best[i]);
            printf("\n");
        }
}

static void print_by_length(struct row *const (*of)[6])
{
    size_t b, r;

    printf("\nby the run's length: the archive's nanoseconds a reading, whole runs\n%8s", "blocks");
    for (r = 0; r < 6; r++)
        printf("%6zu %7s", widths[r / 2], r % 2 == 0 ? "forward" : "back");
    printf("\n");
    for (b = 0; b < LENGTHS; b++) {
        printf("%8zu", of[b][0]->blocks);
        for (r = 0; r < 6 && of[b][r] != NULL; r++)
            printf("%14.2f", of[b][r]->best[0]);
        printf("\n");
    }
}

int main(void)
{
    struct row *whole[6], *blocks[6], *length[LENGTHS][6];
    size_t r, b, pass;

    for (r = 0; r < 6; r++) {
        size_t N = widths[r / 2];
        int back = r % 2 == 1;

        whole[r] = add(N, READINGS / N, back ? whole_back : whole_forward, back, 1);
        blocks[r] = add(N, READINGS / N, back ? blocks_back : blocks_forward, back, 1);
        for (b = 0; b < LENGTHS; b++)
            length[b][r] = N << 2 * b > LONGEST ? NULL : add(N, (size_t)1 << 2 * b, back ? whole_back : whole_forward, back, 0);
    }
    for (pass = 0; pass < PASSES; pass++)
        for (r = 0; r < count; r++)
            measure(&rows[r]);
    print_compared("whole runs", whole);
    print_compared("block by block", blocks);
    print_ways(whole, blocks);
    print_by_width(whole);
    print_by_length(length);
    return 0;
}
