#include "reference.h"

#include <math.h>
#include <stdbool.h>
#include <string.h>

typedef __int128 wide;

/* a record: width, count, finished, the held values, the total */
enum { WIDEST = 128, HALF = 64, HELD = 64, TOTAL = 3 + HELD, NUMBERS = TOTAL + 1 };

/* ---- tables: the nearest whole number to 2^28 times the true value */

static const long double pi = 3.14159265358979323846264338327950288L;
static int doubtful;

static wide nearest(long double value)
{
    long double scaled = ldexpl(value, 28), below = floorl(scaled);

    if (fabsl(scaled - below - 0.5L) < 1e-6L)
        doubtful++;
    return (wide)floorl(scaled + 0.5L);
}

struct tables {
    int width, half, root; /* N, M, the square root of M */
    wide tangent[HALF];    /* t(m) = tan((2m+1)pi/(8N)) */
    wide sine[HALF];       /* s(m) = sin((2m+1)pi/(4N)) */
    wide cosine[HALF][HALF]; /* C(m,n) = cos((2m+1)(2n+1)pi/(4M)) */
    wide secant[HALF][HALF]; /* 1/cos(r pi/N), r the odd one of m+n+1 and m-n */
};

static struct tables all[3];

static void make(struct tables *t, int width, int root)
{
    int m, n;

    t->width = width;
    t->half = width / 2;
    t->root = root;
    for (m = 0; m < t->half; m++) {
        t->tangent[m] = nearest(tanl((2 * m + 1) * pi / (8 * width)));
        t->sine[m] = nearest(sinl((2 * m + 1) * pi / (4 * width)));
        for (n = 0; n < t->half; n++) {
            /* whole turns off first: a turn is 8M parts of pi/(4M) */
            int part = (2 * m + 1) * (2 * n + 1) % (8 * t->half);
            int r = (m + n + 1) % 2 != 0 ? m + n + 1 : m - n;

            t->cosine[m][n] = nearest(cosl(part * pi / (4 * t->half)));
            t->secant[m][n] = nearest(1 / cosl(r * pi / width));
        }
    }
}

int reference_tables(void)
{
    doubtful = 0;
    make(&all[0], 8, 2);
    make(&all[1], 32, 4);
    make(&all[2], 128, 8);
    return doubtful;
}

static const struct tables *tables_of(uint64_t width)
{
    int i;

    for (i = 0; i < 3; i++)
        if (width == (uint64_t)all[i].width)
            return &all[i];
    return NULL;
}

int64_t reference_sine(size_t width, size_t m)
{
    return (int64_t)tables_of(width)->sine[m];
}

int64_t reference_tangent(size_t width, size_t m)
{
    return (int64_t)tables_of(width)->tangent[m];
}

int64_t reference_cosine(size_t width, size_t m, size_t n)
{
    return (int64_t)tables_of(width)->cosine[m][n];
}

int64_t reference_secant(size_t width, size_t m, size_t n)
{
    return (int64_t)tables_of(width)->secant[m][n];
}

/* ---- the steps */

/* v/d rounded, halves up: the floor of (v + d/2)/d */
static wide rounded(wide v, wide d)
{
    wide u = v + d / 2, q = u / d;

    return u % d < 0 ? q - 1 : q;
}

int64_t reference_rounded(int64_t v, int64_t d)
{
    return (int64_t)rounded(v, d);
}

static const wide one = (wide)1 << 28;

static void rotate(const struct tables *t, int m, wide *a, wide *b)
{
    *b += rounded(-t->tangent[m] * *a, one);
    *a += rounded(t->sine[m] * *b, one);
    *b += rounded(-t->tangent[m] * *a, one);
}

static void unrotate(const struct tables *t, int m, wide *a, wide *b)
{
    *b -= rounded(-t->tangent[m] * *a, one);
    *a -= rounded(t->sine[m] * *b, one);
    *b -= rounded(-t->tangent[m] * *a, one);
}

static int sign(int n)
{
    return n % 2 == 0 ? 1 : -1;
}

/* the amounts that stages 1 to 5 add */
static wide amount1(const struct tables *t, int m, const wide *top)
{
    wide sum = 0;
    int n;

    for (n = 0; n < t->half; n++)
        sum += 2 * t->cosine[m][n] * sign(n) * top[n];
    return rounded(sum, one * t->root);
}

static wide amount2(const struct tables *t, int m, const wide *bottom)
{
    wide sum = 0;
    int n;

    for (n = 0; n < t->half; n++)
        sum += t->cosine[m][n] * bottom[n];
    return rounded(sum, one * t->root);
}

static wide amount3(const struct tables *t, int m, const wide *top)
{
    /* over 2^28 times M, which is the root squared */
    wide sum = -t->tangent[t->half - 1 - m] * top[t->half - 1 - m] * t->half;
    int n;

    for (n = 0; n < t->half; n++)
        sum -= t->secant[m][n] * top[n] + 2 * t->cosine[m][n] * top[n] * t->root;
    return rounded(sum, one * t->half);
}

static void stages(const struct tables *t, const wide *folded, wide *frame)
{
    wide top[HALF], bottom[HALF];
    int m, M = t->half;

    for (m = 0; m < M; m++) {
        top[m] = folded[2 * m];
        bottom[m] = folded[2 * m + 1];
    }
    for (m = 0; m < M; m++)
        bottom[m] += top[m] + amount1(t, m, top);
    for (m = 0; m < M; m++)
        top[m] = -sign(m) * top[m] + amount2(t, m, bottom);
    for (m = 0; m < M; m++)
        bottom[m] += amount3(t, m, top);
    for (m = 0; m < M; m++)
        top[m] += rounded(t->sine[m] * bottom[M - 1 - m], one);
    for (m = 0; m < M; m++)
        bottom[M - 1 - m] += rounded(-t->tangent[m] * top[m], one);
    for (m = 0; m < M; m++) {
        frame[m] = top[m];
        frame[M + m] = bottom[m];
    }
}

static void unstages(const struct tables *t, const wide *frame, wide *folded)
{
    wide top[HALF], bottom[HALF];
    int m, M = t->half;

    for (m = 0; m < M; m++) {
        top[m] = frame[m];
        bottom[m] = frame[M + m];
    }
    for (m = 0; m < M; m++)
        bottom[M - 1 - m] -= rounded(-t->tangent[m] * top[m], one);
    for (m = 0; m < M; m++)
        top[m] -= rounded(t->sine[m] * bottom[M - 1 - m], one);
    for (m = 0; m < M; m++)
        bottom[m] -= amount3(t, m, top);
    for (m = 0; m < M; m++)
        top[m] = -sign(m) * (top[m] - amount2(t, m, bottom));
    for (m = 0; m < M; m++)
        bottom[m] -= top[m] + amount1(t, m, top);
    for (m = 0; m < M; m++) {
        folded[2 * m] = top[m];
        folded[2 * m + 1] = bottom[m];
    }
}

/* ---- the gate */

enum {
    DONE, WIDTH, RECORD, CLOSED, FULL, EMPTY, INPUT_LENGTH, OUTPUT_LENGTH, DEAD_MARK, RANGE, FOLDED, HALVES, UNFOLDED,
    LIMITS = 17, ALL_MADE, OTHER_COUNT
};

static uint32_t refuse(uint32_t number, size_t at, size_t *place)
{
    *place = at;
    return number;
}

/* the first of the numbers that is beyond the limit, or the count of them */
static size_t first_beyond(const wide *x, size_t count, wide limit)
{
    size_t i;

    for (i = 0; i < count; i++)
        if (x[i] < -limit || x[i] > limit)
            break;
    return i;
}

static void widen(const int32_t *x, size_t count, wide *out)
{
    size_t i;

    for (i = 0; i < count; i++)
        out[i] = x[i];
}

static void narrow(const wide *x, size_t count, int32_t *out)
{
    size_t i;

    for (i = 0; i < count; i++)
        out[i] = (int32_t)x[i];
}

static wide sum_of(const wide *x, size_t count)
{
    wide sum = 0;
    size_t i;

    for (i = 0; i < count; i++)
        sum += x[i];
    return sum;
}

/* questions 8 and 9: the dead mark is looked for in the whole block first */
static uint32_t asked_readings(const wide *x, size_t count, size_t *place)
{
    size_t i;

    for (i = 0; i < count; i++)
        if (x[i] == -32768)
            return refuse(DEAD_MARK, i, place);
    i = first_beyond(x, count, 32767);
    return i < count ? refuse(RANGE, i, place) : refuse(DONE, 0, place);
}

enum way { FORWARD, BACK };

/* whether a record of this count can have such a total: going back, the first frame gives no block */
static bool total_fits(enum way way, wide width, wide count, wide total)
{
    wide blocks = way == BACK && count > 0 ? count - 1 : count, limit = blocks * width * 32767;

    return -limit <= total && total <= limit;
}

/* question 2, of a record that goes this way */
static bool sound(const int64_t *run, size_t run_length, enum way way)
{
    const struct tables *t;
    bool zero;
    int i;

    if (run_length != NUMBERS)
        return false;
    t = run[0] < 0 ? NULL : tables_of((uint64_t)run[0]);
    if (t == NULL || run[1] < 0 || run[1] > (way == FORWARD ? 65536 : 65537) || (run[2] != 0 && run[2] != 1))
        return false;
    if (!total_fits(way, t->width, run[1], run[TOTAL]))
        return false;
    zero = run[1] == 0 || run[2] == 1;
    for (i = 0; i < HELD; i++) {
        int64_t held = run[3 + i];

        if (held < -50000 || held > 50000 || (held != 0 && (i >= t->half || zero)))
            return false;
    }
    return true;
}

uint32_t reference_start(size_t width, int64_t *run, size_t run_length, size_t *place)
{
    bool good = tables_of(width) != NULL;

    if (run_length == NUMBERS) {
        memset(run, 0, NUMBERS * sizeof *run);
        run[0] = good ? (int64_t)width : 0;
    }
    if (!good)
        return refuse(WIDTH, 0, place);
    return refuse(run_length == NUMBERS ? DONE : RECORD, 0, place);
}

/* the frame of a block after what the record holds, which then holds the block's */
static void frame_of(int64_t *run, const wide *block, int32_t *frame)
{
    const struct tables *t = tables_of((uint64_t)run[0]);
    wide folded[WIDEST], out[WIDEST];
    int n, M = t->half;

    for (n = 0; n < M; n++) {
        wide a = block[n], b = block[t->width - 1 - n];

        rotate(t, n, &a, &b);
        folded[M + n] = run[3 + n];
        folded[M - 1 - n] = a;
        run[3 + n] = (int64_t)b;
    }
    stages(t, folded, out);
    narrow(out, (size_t)t->width, frame);
}

uint32_t reference_take(int64_t *run, size_t run_length, const int32_t *block, size_t block_length,
                        int32_t *frame, size_t frame_length, size_t *place)
{
    wide wide_block[WIDEST] = {0};
    uint32_t answer;

    if (!sound(run, run_length, FORWARD))
        return refuse(RECORD, 0, place);
    if (run[2] == 1)
        return refuse(CLOSED, 0, place);
    if (run[1] == 65536)
        return refuse(FULL, 0, place);
    if (block_length != (size_t)run[0])
        return refuse(INPUT_LENGTH, 0, place);
    if (frame_length != (size_t)run[0])
        return refuse(OUTPUT_LENGTH, 0, place);
    widen(block, block_length, wide_block);
    answer = asked_readings(wide_block, block_length, place);
    if (answer != DONE)
        return answer;
    frame_of(run, wide_block, frame);
    run[1]++;
    run[TOTAL] += (int64_t)sum_of(wide_block, block_length);
    return refuse(DONE, 0, place);
}

uint32_t reference_finish(int64_t *run, size_t run_length, int32_t *frame, size_t frame_length, size_t *place)
{
    const wide zeros[WIDEST] = {0};

    if (!sound(run, run_length, FORWARD))
        return refuse(RECORD, 0, place);
    if (run[2] == 1)
        return refuse(CLOSED, 0, place);
    if (frame_length != (size_t)run[0])
        return refuse(OUTPUT_LENGTH, 0, place);
    frame_of(run, zeros, frame);
    memset(run + 3, 0, HELD * sizeof *run);
    run[2] = 1;
    return refuse(DONE, 0, place);
}

uint32_t reference_back_take(int64_t *run, size_t run_length, const int32_t *frame, size_t frame_length,
                             int32_t *block, size_t block_length, size_t *place)
{
    const struct tables *t;
    wide coefficients[WIDEST] = {0}, folded[WIDEST], readings[WIDEST];
    size_t i, N, M;

    if (!sound(run, run_length, BACK))
        return refuse(RECORD, 0, place);
    if (run[2] == 1)
        return refuse(CLOSED, 0, place);
    if (run[1] == 65537)
        return refuse(FULL, 0, place);
    t = tables_of((uint64_t)run[0]);
    N = (size_t)t->width;
    M = (size_t)t->half;
    if (frame_length != N)
        return refuse(INPUT_LENGTH, 0, place);
    if (block_length != N)
        return refuse(OUTPUT_LENGTH, 0, place);
    widen(frame, N, coefficients);
    i = first_beyond(coefficients, N, 1048576);
    if (i < N)
        return refuse(RANGE, i, place);
    unstages(t, coefficients, folded);
    i = first_beyond(folded, N, 50000);
    if (i < N)
        return refuse(FOLDED, i, place);
    if (run[1] == 0) {
        i = first_beyond(folded + M, M, 0);
        if (i < M)
            return refuse(HALVES, M + i, place);
    } else {
        for (i = 0; i < M; i++) {
            wide a = run[3 + M - 1 - i], b = folded[M + i];

            unrotate(t, (int)i, &a, &b);
            readings[i] = a;
            readings[N - 1 - i] = b;
        }
        i = first_beyond(readings, N, 32767);
        if (i < N)
            return refuse(UNFOLDED, i, place);
        narrow(readings, N, block);
        run[TOTAL] += (int64_t)sum_of(readings, N);
    }
    for (i = 0; i < M; i++)
        run[3 + i] = (int64_t)folded[i];
    run[1]++;
    return refuse(DONE, 0, place);
}

uint32_t reference_back_finish(int64_t *run, size_t run_length, size_t *place)
{
    size_t i, M;

    if (!sound(run, run_length, BACK))
        return refuse(RECORD, 0, place);
    if (run[2] == 1)
        return refuse(CLOSED, 0, place);
    if (run[1] == 0)
        return refuse(EMPTY, 0, place);
    M = (size_t)run[0] / 2;
    for (i = 0; i < M; i++)
        if (run[3 + i] != 0)
            return refuse(HALVES, i, place);
    run[2] = 1;
    return refuse(DONE, 0, place);
}

/* ---- whole runs: width and lengths first, then the calls one by one, first with nothing of the caller's written */

static uint32_t forward_calls(size_t N, const int32_t *readings, size_t blocks, int32_t *frames, size_t *place)
{
    int64_t run[NUMBERS];
    int32_t spare[WIDEST];
    uint32_t answer;
    size_t b;

    reference_start(N, run, NUMBERS, place);
    for (b = 0; b < blocks; b++) {
        answer = reference_take(run, NUMBERS, readings + b * N, N, frames == NULL ? spare : frames + b * N, N, place);
        if (answer != DONE)
            return refuse(answer, *place + b * N, place);
    }
    return reference_finish(run, NUMBERS, frames == NULL ? spare : frames + blocks * N, N, place);
}

uint32_t reference_forward(size_t width, const int32_t *readings, size_t readings_length,
                           int32_t *frames, size_t frames_length, size_t *place)
{
    size_t blocks;
    uint32_t answer;

    if (tables_of(width) == NULL)
        return refuse(WIDTH, 0, place);
    blocks = readings_length / width;
    if (readings_length % width != 0 || blocks > 65536)
        return refuse(INPUT_LENGTH, 0, place);
    if (frames_length != readings_length + width)
        return refuse(OUTPUT_LENGTH, 0, place);
    answer = forward_calls(width, readings, blocks, NULL, place);
    return answer != DONE ? answer : forward_calls(width, readings, blocks, frames, place);
}

static uint32_t back_calls(size_t N, const int32_t *frames, size_t count, int32_t *readings, size_t *place)
{
    int64_t run[NUMBERS];
    int32_t spare[WIDEST];
    uint32_t answer;
    size_t f;

    reference_start(N, run, NUMBERS, place);
    for (f = 0; f < count; f++) {
        int32_t *out = readings == NULL || f == 0 ? spare : readings + (f - 1) * N;

        answer = reference_back_take(run, NUMBERS, frames + f * N, N, out, N, place);
        if (answer == UNFOLDED)
            return refuse(answer, *place + (f - 1) * N, place);
        if (answer != DONE)
            return refuse(answer, *place + f * N, place);
    }
    answer = reference_back_finish(run, NUMBERS, place);
    return refuse(answer, answer == DONE ? 0 : *place + (count - 1) * N, place);
}

uint32_t reference_back(size_t width, const int32_t *frames, size_t frames_length,
                        int32_t *readings, size_t readings_length, size_t *place)
{
    size_t count;
    uint32_t answer;

    if (tables_of(width) == NULL)
        return refuse(WIDTH, 0, place);
    count = frames_length / width;
    if (frames_length % width != 0 || count > 65537 || count < 1)
        return refuse(INPUT_LENGTH, 0, place);
    if (readings_length + width != frames_length)
        return refuse(OUTPUT_LENGTH, 0, place);
    answer = back_calls(width, frames, count, NULL, place);
    return answer != DONE ? answer : back_calls(width, frames, count, readings, place);
}

/* ---- the five stages alone */

static uint32_t shaped(size_t width, size_t input_length, size_t output_length, size_t *place)
{
    if (tables_of(width) == NULL)
        return refuse(WIDTH, 0, place);
    if (input_length != width)
        return refuse(INPUT_LENGTH, 0, place);
    return refuse(output_length == width ? DONE : OUTPUT_LENGTH, 0, place);
}

uint32_t reference_stages(size_t width, const int32_t *folded, size_t folded_length,
                          int32_t *frame, size_t frame_length, size_t *place)
{
    wide in[WIDEST] = {0}, out[WIDEST];
    uint32_t answer = shaped(width, folded_length, frame_length, place);
    size_t i;

    if (answer != DONE)
        return answer;
    widen(folded, width, in);
    i = first_beyond(in, width, 50000);
    if (i < width)
        return refuse(FOLDED, i, place);
    stages(tables_of(width), in, out);
    narrow(out, width, frame);
    return DONE;
}

uint32_t reference_unstages(size_t width, const int32_t *frame, size_t frame_length,
                            int32_t *folded, size_t folded_length, size_t *place)
{
    wide in[WIDEST] = {0}, out[WIDEST];
    uint32_t answer = shaped(width, frame_length, folded_length, place);
    size_t i;

    if (answer != DONE)
        return answer;
    widen(frame, width, in);
    i = first_beyond(in, width, 1048576);
    if (i < width)
        return refuse(RANGE, i, place);
    unstages(tables_of(width), in, out);
    i = first_beyond(out, width, 50000);
    if (i < width)
        return refuse(FOLDED, i, place);
    narrow(out, width, folded);
    return DONE;
}

/* ---- the valve */

/* v/d cut toward zero: the floor, and one more where the floor lies beyond */
static wide cut(wide v, wide d)
{
    wide rest = (v % d + d) % d, below = (v - rest) / d;

    return v < 0 && rest != 0 ? below + 1 : below;
}

static wide greater(wide a, wide b)
{
    return a > b ? a : b;
}

static wide lesser(wide a, wide b)
{
    return a < b ? a : b;
}

static bool within(wide low, wide x, wide high)
{
    return low <= x && x <= high;
}

/* of question 17, what is asked of the record */
static bool valve_fits(wide position, wide count)
{
    return within(0, position, 10000) && within(0, count, 1000000);
}

/* the move against the average, held between the two ends that step and travel leave it together */
uint32_t reference_valve_ask(size_t width, int32_t position, int32_t count, const int32_t *block, size_t block_length,
                             int32_t *move, int32_t *ticket_count, size_t *place)
{
    wide readings[WIDEST] = {0}, low = greater(-500, -(wide)position), high = lesser(500, 10000 - (wide)position);
    uint32_t answer;

    if (tables_of(width) == NULL)
        return refuse(WIDTH, 0, place);
    if (block_length != width)
        return refuse(INPUT_LENGTH, 0, place);
    widen(block, width, readings);
    answer = asked_readings(readings, width, place);
    if (answer != DONE)
        return answer;
    if (!valve_fits(position, count))
        return refuse(LIMITS, 0, place);
    *move = (int32_t)greater(low, lesser(high, -cut(sum_of(readings, width), (wide)width)));
    *ticket_count = count;
    return refuse(DONE, 0, place);
}

uint32_t reference_valve_make(int32_t *position, int32_t *count, int32_t move, int32_t ticket_count, size_t *place)
{
    wide after = (wide)*position + move;

    if (!valve_fits(*position, *count) || !within(-500, move, 500) || !within(0, after, 10000))
        return refuse(LIMITS, 0, place);
    if (*count == 1000000)
        return refuse(ALL_MADE, 0, place);
    if (*count != ticket_count)
        return refuse(OTHER_COUNT, 0, place);
    *position = (int32_t)after;
    *count += 1;
    return refuse(DONE, 0, place);
}
