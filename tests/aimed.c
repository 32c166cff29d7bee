#include "aimed.h"

#include "compare.h"
#include "inputs.h"
#include "lapped.h"
#include "reference.h"

#include <string.h>

enum { WIDEST = LAPPED_WIDTH_MAX, HALF = WIDEST / 2, TIMES = 4 };

/* the square root of M is 2 to this */
static int root_bits(size_t N)
{
    return N == 8 ? 1 : N == 32 ? 2 : 3;
}

static int sign(size_t n)
{
    return n % 2 == 0 ? 1 : -1;
}

/* v modulo 2^bits, from -2^(bits-1) up */
static int64_t centred(uint64_t v, int bits)
{
    uint64_t half = (uint64_t)1 << (bits - 1), low = v & (2 * half - 1);

    return low < half ? (int64_t)low : (int64_t)low - (int64_t)(2 * half);
}

/*
 * Numbers within the limit whose sum with the weights is the target modulo 2^bits: all but one at random, one of
 * them again and again, until the one with an odd weight comes out within the limit too.
 */
static bool solve(const int64_t *weights, size_t count, int32_t limit, int bits, int64_t target, int32_t *x)
{
    uint64_t rest = (uint64_t)target, inverse = 1;
    size_t odd = 0, i;
    int tries, step;

    while (odd < count && weights[odd] % 2 == 0)
        odd++;
    if (odd == count)
        return false;
    for (step = 0; step < 6; step++)
        inverse *= 2 - (uint64_t)weights[odd] * inverse;
    for (i = 0; i < count; i++) {
        x[i] = i == odd ? 0 : within(limit);
        rest -= (uint64_t)weights[i] * (uint64_t)(int64_t)x[i];
    }
    for (tries = 0; tries < 1 << 26; tries++) {
        int64_t last = centred(rest * inverse, bits);

        if (-limit <= last && last <= limit) {
            x[odd] = (int32_t)last;
            return true;
        }
        i = below(count);
        if (i != odd) {
            int32_t other = within(limit);

            rest += (uint64_t)weights[i] * (uint64_t)((int64_t)x[i] - other);
            x[i] = other;
        }
    }
    return false;
}

/* the stages and back, which give the very values */
static void there_and_back(size_t N, const int32_t *folded)
{
    int32_t frame[WIDEST], again[WIDEST];

    expect(with_width(STAGES, N, folded, N, frame, N) == LAPPED_DONE, "the stages refuse what is aimed");
    expect(with_width(UNSTAGES, N, frame, N, again, N) == LAPPED_DONE, "the stages are not undone");
    expect(memcmp(again, folded, N * sizeof *folded) == 0, "the stages go back to other values");
}

/* stage 1, row m: its sum is over top alone */
static void aim_1(size_t N, size_t m, int off)
{
    int bits = 27 + root_bits(N);
    int64_t weights[HALF] = {0};
    int32_t top[HALF], folded[WIDEST];
    size_t n;

    for (n = 0; n < N / 2; n++)
        weights[n] = sign(n) * reference_cosine(N, m, n);
    if (!solve(weights, N / 2, LAPPED_FOLDED_MAX, bits, ((int64_t)1 << (bits - 1)) + off, top))
        return;
    for (n = 0; n < N / 2; n++) {
        folded[2 * n] = top[n];
        folded[2 * n + 1] = within(1000);
    }
    there_and_back(N, folded);
}

/* stage 2, row m: where top is zero, bottom comes to it as it was */
static void aim_2(size_t N, size_t m, int off)
{
    int bits = 28 + root_bits(N);
    int64_t weights[HALF] = {0};
    int32_t bottom[HALF], folded[WIDEST];
    size_t n;

    for (n = 0; n < N / 2; n++)
        weights[n] = reference_cosine(N, m, n);
    if (!solve(weights, N / 2, LAPPED_FOLDED_MAX, bits, ((int64_t)1 << (bits - 1)) + off, bottom))
        return;
    for (n = 0; n < N / 2; n++) {
        folded[2 * n] = 0;
        folded[2 * n + 1] = bottom[n];
    }
    there_and_back(N, folded);
}

/* stage 3, row m: where bottom is zero after stage 1, top comes to it with its signs changed by stage 2 alone */
static void aim_3(size_t N, size_t m, int off)
{
    int bits = 28 + 2 * root_bits(N);
    int32_t limit = N == 8 ? 14000 : N == 32 ? 8000 : 4400;
    int64_t weights[HALF] = {0}, root = (int64_t)1 << root_bits(N), M = (int64_t)N / 2;
    int32_t top[HALF], folded[WIDEST];
    size_t n, k, last = N / 2 - 1 - m;

    for (n = 0; n < N / 2; n++)
        weights[n] = -reference_secant(N, m, n) - 2 * root * reference_cosine(N, m, n) - (n == last ? M * reference_tangent(N, n) : 0);
    if (!solve(weights, N / 2, limit, bits, ((int64_t)1 << (bits - 1)) + off, top))
        return;
    for (n = 0; n < N / 2; n++)
        folded[2 * n] = -sign(n) * top[n];
    for (n = 0; n < N / 2; n++) {
        int64_t sum = 0;

        for (k = 0; k < N / 2; k++)
            sum += 2 * reference_cosine(N, n, k) * sign(k) * folded[2 * k];
        folded[2 * n + 1] = (int32_t)(-folded[2 * n] - reference_rounded(sum, ((int64_t)1 << 28) * root));
    }
    there_and_back(N, folded);
}

/* a number within the limit whose product with a table number is so near a half that one more or less in the table tells */
static int32_t near_half(int64_t number, int32_t limit)
{
    int32_t a = within(limit), steps;

    for (steps = 2 * limit; steps > 0; steps--) {
        int64_t from = centred((uint64_t)(number * a) - ((uint64_t)1 << 27), 28);

        if (-from < (a < 0 ? -a : a) && from < (a < 0 ? -a : a))
            return a;
        a = a == limit ? -limit : a + 1;
    }
    return 0;
}

static int32_t lift(int64_t number, int32_t x)
{
    return (int32_t)reference_rounded(number * x, (int64_t)1 << 28);
}

/* the lifts of the fold: the first, the second or the third of the pair at m, there and back as a whole run */
static void aim_fold(size_t N, size_t m, int which)
{
    const int32_t limit = LAPPED_READING_MAX;
    int64_t t = reference_tangent(N, m), s = reference_sine(N, m);
    int32_t block[WIDEST] = {0}, frames[2 * WIDEST], again[WIDEST], a, b;

    a = which == 1 ? near_half(t, limit) : within(limit);
    b = which == 2 ? near_half(s, limit) : within(limit);
    if (which == 3)
        a = near_half(t, limit) - lift(s, b);
    if (which != 1)
        b -= lift(-t, a);
    if (a < -limit || a > limit || b < -limit || b > limit)
        return;
    block[m] = a;
    block[N - 1 - m] = b;
    expect(with_width(FORWARD, N, block, N, frames, 2 * N) == LAPPED_DONE, "a run refuses what is aimed");
    expect(with_width(BACK, N, frames, 2 * N, again, N) == LAPPED_DONE, "it does not go back");
    expect(memcmp(again, block, N * sizeof *block) == 0, "it goes back to other readings");
}

/* stages 4 and 5 at m, undone first going back: one coefficient that is not zero */
static void aim_lifts(size_t N, size_t m, bool fourth)
{
    int32_t frame[WIDEST] = {0}, folded[WIDEST], again[WIDEST];

    if (fourth)
        frame[N - 1 - m] = near_half(reference_sine(N, m), LAPPED_FOLDED_MAX);
    else
        frame[m] = near_half(reference_tangent(N, m), LAPPED_FOLDED_MAX);
    if (with_width(UNSTAGES, N, frame, N, folded, N) != LAPPED_DONE)
        return;
    expect(with_width(STAGES, N, folded, N, again, N) == LAPPED_DONE, "the stages refuse what they gave back");
    expect(memcmp(again, frame, N * sizeof *frame) == 0, "they give another frame");
}

/* ---- the total: question 2 goes by the way */

/* how large the total of so many blocks can be */
static int64_t total_limit(size_t N, int64_t blocks)
{
    return blocks * (int64_t)N * LAPPED_READING_MAX;
}

/* every call with a record of such a count and total; zeros come in and are held, so that nothing is added to it */
static void aim_record(size_t N, int64_t count, int64_t finished, int64_t total)
{
    static const int32_t zeros[WIDEST];
    enum entry entry;

    for (entry = TAKE; entry <= BACK_FINISH; entry = (enum entry)(entry + 1)) {
        bool back = entry == BACK_TAKE || entry == BACK_FINISH, block = entry == TAKE || entry == BACK_TAKE;
        int64_t run[LAPPED_RUN_LENGTH] = {0}, limit = total_limit(N, back && count > 0 ? count - 1 : count);
        bool sound = count <= LAPPED_BLOCKS_MAX + back && -limit <= total && total <= limit;
        uint32_t answer;

        run[LAPPED_RUN_WIDTH] = (int64_t)N;
        run[LAPPED_RUN_COUNT] = count;
        run[LAPPED_RUN_FINISHED] = finished;
        run[LAPPED_RUN_TOTAL] = total;
        answer = with_record(entry, run, LAPPED_RUN_LENGTH, block ? zeros : NULL, block ? N : 0, NULL, entry == BACK_FINISH ? 0 : N);
        expect((answer != LAPPED_RECORD) == sound, sound ? "a total that fits is refused" : "a total that does not fit is taken");
        expect(run[LAPPED_RUN_TOTAL] == total, "zeros change the total");
    }
}

/* the limit of one block less, of the count and of one block more: on it, one below, one beyond, of either sign; and any others */
static void aim_totals(size_t N, int64_t count, int64_t finished)
{
    static const int64_t others[] = {0, 1, -1, (int64_t)1 << 31, (int64_t)1 << 32, -((int64_t)1 << 32), ((int64_t)1 << 40) + 1,
                                     INT64_MAX, INT64_MIN, INT64_MIN + 1, INT64_MIN + 100};
    int64_t blocks, off;
    size_t i;

    for (blocks = count > 2 ? count - 2 : 0; blocks <= count + 1; blocks++)
        for (off = -1; off <= 1; off++) {
            aim_record(N, count, finished, total_limit(N, blocks) + off);
            aim_record(N, count, finished, -total_limit(N, blocks) - off);
        }
    for (i = 0; i < sizeof others / sizeof *others; i++)
        aim_record(N, count, finished, others[i]);
}

/* a record of so many blocks (frames back), with the greatest total, takes a block of the greatest readings more, and gives it back */
static void aim_sum(size_t N, int64_t count, int32_t reading)
{
    int64_t forward[LAPPED_RUN_LENGTH] = {0}, back[LAPPED_RUN_LENGTH] = {0}, sign = reading < 0 ? -1 : 1;
    int32_t block[WIDEST], frames[2 * WIDEST], again[WIDEST];
    size_t i;

    for (i = 0; i < N; i++)
        block[i] = reading;
    start(N, forward, LAPPED_RUN_LENGTH);
    forward[LAPPED_RUN_COUNT] = count;
    forward[LAPPED_RUN_TOTAL] = sign * total_limit(N, count);
    expect(with_record(TAKE, forward, LAPPED_RUN_LENGTH, block, N, frames, N) == LAPPED_DONE, "a block of the greatest readings is refused");
    expect(forward[LAPPED_RUN_TOTAL] == sign * total_limit(N, count + 1), "its sum is not added");
    expect(with_record(FINISH, forward, LAPPED_RUN_LENGTH, NULL, 0, frames + N, N) == LAPPED_DONE, "the finish after it is refused");
    expect(forward[LAPPED_RUN_TOTAL] == sign * total_limit(N, count + 1), "the finish changes the total");

    start(N, back, LAPPED_RUN_LENGTH);
    expect(with_record(BACK_TAKE, back, LAPPED_RUN_LENGTH, frames, N, NULL, N) == LAPPED_DONE, "its first frame is refused");
    expect(back[LAPPED_RUN_TOTAL] == 0, "the first frame adds to the total");
    back[LAPPED_RUN_COUNT] = count + 1;
    back[LAPPED_RUN_TOTAL] = sign * total_limit(N, count);
    expect(with_record(BACK_TAKE, back, LAPPED_RUN_LENGTH, frames + N, N, again, N) == LAPPED_DONE, "its second frame is refused");
    expect(memcmp(again, block, N * sizeof *block) == 0, "another block comes back");
    expect(back[LAPPED_RUN_TOTAL] == sign * total_limit(N, count + 1), "its sum is not added back");
    expect(with_record(BACK_FINISH, back, LAPPED_RUN_LENGTH, NULL, 0, NULL, 0) == LAPPED_DONE, "the finish back is refused");
    expect(back[LAPPED_RUN_TOTAL] == sign * total_limit(N, count + 1), "the finish back changes the total");
}

/* a record that calls of one way made, handed to those of the other: one frame gives no block, so it can have no total */
static void aim_other_way(size_t N, int32_t first, bool sound)
{
    int64_t made[LAPPED_RUN_LENGTH] = {0}, run[LAPPED_RUN_LENGTH];
    int32_t block[WIDEST] = {0}, frame[WIDEST];

    block[0] = first;
    block[1] = sound ? -first : 0;
    start(N, made, LAPPED_RUN_LENGTH);
    with_record(TAKE, made, LAPPED_RUN_LENGTH, block, N, frame, N);
    memcpy(run, made, sizeof run);
    expect((with_record(BACK_TAKE, run, LAPPED_RUN_LENGTH, frame, N, NULL, N) != LAPPED_RECORD) == sound, "a forward record back");
    memcpy(run, made, sizeof run);
    expect((with_record(BACK_FINISH, run, LAPPED_RUN_LENGTH, NULL, 0, NULL, 0) != LAPPED_RECORD) == sound, "a forward record finished back");
    with_record(FINISH, made, LAPPED_RUN_LENGTH, NULL, 0, frame, N);
    expect((with_record(BACK_FINISH, made, LAPPED_RUN_LENGTH, NULL, 0, NULL, 0) != LAPPED_RECORD) == sound, "a finished forward record back");
    start(N, made, LAPPED_RUN_LENGTH);
    memset(block, 0, sizeof block);
    with_record(BACK_TAKE, made, LAPPED_RUN_LENGTH, block, N, NULL, N);
    expect(with_record(TAKE, made, LAPPED_RUN_LENGTH, block, N, NULL, N) == LAPPED_DONE, "a record of one frame, with no total, forward");
}

static void aimed_at_totals(size_t N)
{
    static const int64_t counts[] = {0, 1, 2, 3, 1000, 65534, 65535, 65536, 65537, 65538};
    size_t i;

    for (i = 0; i < sizeof counts / sizeof *counts; i++) {
        aim_totals(N, counts[i], 0);
        aim_totals(N, counts[i], 1);
        if (counts[i] < LAPPED_BLOCKS_MAX) {
            aim_sum(N, counts[i], LAPPED_READING_MAX);
            aim_sum(N, counts[i], -LAPPED_READING_MAX);
        }
    }
    aim_other_way(N, 100, false);
    aim_other_way(N, -1, false);
    aim_other_way(N, 100, true);
}

void aimed(void)
{
    static const size_t widths[3] = {8, 32, 128};
    size_t w, m, i;
    int off;

    for (w = 0; w < 3; w++)
        aimed_at_totals(widths[w]);
    for (w = 0; w < 3; w++)
        for (m = 0; m < widths[w] / 2; m++)
            for (i = 0; i < TIMES; i++) {
                for (off = -1; off <= 0; off++) {
                    aim_1(widths[w], m, off);
                    aim_2(widths[w], m, off);
                    aim_3(widths[w], m, off);
                }
                aim_fold(widths[w], m, 1);
                aim_fold(widths[w], m, 2);
                aim_fold(widths[w], m, 3);
                aim_lifts(widths[w], m, true);
                aim_lifts(widths[w], m, false);
            }
}
