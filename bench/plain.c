#include "plain.h"

#include <math.h>

static int64_t nearest(double x)
{
    return (int64_t)floor(x * 268435456.0 + 0.5);
}

/* halves go up: the shift rounds down, below zero too */
static inline int64_t rounded(int64_t v, int bits)
{
    return (v + ((int64_t)1 << (bits - 1))) >> bits;
}

static inline int64_t row_sum(const int64_t *row, const int64_t *x, int count)
{
    int64_t sum = 0;
    int i;

    for (i = 0; i < count; i++)
        sum += row[i] * x[i];
    return sum;
}

static void start(struct plain *p, int width)
{
    const double pi = acos(-1.0);
    int N = width, M = width / 2, m, n;

    p->width = N;
    p->half = M;
    p->root = N == 8 ? 1 : N == 32 ? 2 : 3;
    for (m = 0; m < M; m++) {
        p->tangent[m] = nearest(tan((2 * m + 1) * pi / (8 * N)));
        p->sine[m] = nearest(sin((2 * m + 1) * pi / (4 * N)));
        for (n = 0; n < M; n++) {
            int r = (m + n + 1) % 2 ? m + n + 1 : m - n;

            p->cosine[m * M + n] = nearest(cos((2 * m + 1) * (2 * n + 1) * pi / (4 * M)));
            p->secant[m * M + n] = nearest(1 / cos(r * pi / N));
        }
    }
}

static inline int64_t amount3(const struct plain *p, int m, const int64_t *top)
{
    int M = p->half, last = M - 1 - m;

    return -row_sum(p->secant + m * M, top, M) - ((int64_t)2 << p->root) * row_sum(p->cosine + m * M, top, M)
         - M * (p->tangent[last] * top[last]);
}

static void stages(const struct plain *p, int64_t *top, int64_t *bottom)
{
    int M = p->half, l = p->root, m;
    int64_t x[64];

    for (m = 0; m < M; m++)
        x[m] = m % 2 ? -top[m] : top[m];
    for (m = 0; m < M; m++)
        bottom[m] += top[m] + rounded(row_sum(p->cosine + m * M, x, M), 27 + l);
    for (m = 0; m < M; m++)
        top[m] = -x[m] + rounded(row_sum(p->cosine + m * M, bottom, M), 28 + l);
    for (m = 0; m < M; m++)
        bottom[m] += rounded(amount3(p, m, top), 28 + 2 * l);
    for (m = 0; m < M; m++)
        top[m] += rounded(p->sine[m] * bottom[M - 1 - m], 28);
    for (m = 0; m < M; m++)
        bottom[M - 1 - m] += rounded(-p->tangent[m] * top[m], 28);
}

static void unstages(const struct plain *p, int64_t *top, int64_t *bottom)
{
    int M = p->half, l = p->root, m;
    int64_t x[64];

    for (m = 0; m < M; m++)
        bottom[M - 1 - m] -= rounded(-p->tangent[m] * top[m], 28);
    for (m = 0; m < M; m++)
        top[m] -= rounded(p->sine[m] * bottom[M - 1 - m], 28);
    for (m = 0; m < M; m++)
        bottom[m] -= rounded(amount3(p, m, top), 28 + 2 * l);
    for (m = 0; m < M; m++)
        x[m] = rounded(row_sum(p->cosine + m * M, bottom, M), 28 + l) - top[m];
    for (m = 0; m < M; m++)
        top[m] = m % 2 ? -x[m] : x[m];
    for (m = 0; m < M; m++)
        bottom[m] -= top[m] + rounded(row_sum(p->cosine + m * M, x, M), 27 + l);
}

static void take(const struct plain *p, int64_t *held, const int32_t *block, int32_t *frame)
{
    int M = p->half, N = p->width, n;
    int64_t folded[128], top[64], bottom[64];

    for (n = 0; n < M; n++) {
        int64_t a = block[n], b = block[N - 1 - n];

        b += rounded(-p->tangent[n] * a, 28);
        a += rounded(p->sine[n] * b, 28);
        b += rounded(-p->tangent[n] * a, 28);
        folded[M - 1 - n] = a;
        folded[M + n] = held[n];
        held[n] = b;
    }
    for (n = 0; n < M; n++) {
        top[n] = folded[2 * n];
        bottom[n] = folded[2 * n + 1];
    }
    stages(p, top, bottom);
    for (n = 0; n < M; n++) {
        frame[n] = (int32_t)top[n];
        frame[M + n] = (int32_t)bottom[n];
    }
}

static void back_take(const struct plain *p, int64_t *held, int first, const int32_t *frame, int32_t *block)
{
    int M = p->half, N = p->width, n;
    int64_t folded[128], top[64], bottom[64];

    for (n = 0; n < M; n++) {
        top[n] = frame[n];
        bottom[n] = frame[M + n];
    }
    unstages(p, top, bottom);
    for (n = 0; n < M; n++) {
        folded[2 * n] = top[n];
        folded[2 * n + 1] = bottom[n];
    }
    for (n = 0; n < M && !first; n++) {
        int64_t a = held[M - 1 - n], b = folded[M + n];

        b -= rounded(-p->tangent[n] * a, 28);
        a -= rounded(p->sine[n] * b, 28);
        b -= rounded(-p->tangent[n] * a, 28);
        block[n] = (int32_t)a;
        block[N - 1 - n] = (int32_t)b;
    }
    for (n = 0; n < M; n++)
        held[n] = folded[n];
}

static int64_t sum(const struct plain *p, const int32_t *block)
{
    int64_t total = 0;
    int n;

    for (n = 0; n < p->width; n++)
        total += block[n];
    return total;
}

static void forward(const struct plain *p, const int32_t *readings, size_t blocks, int32_t *frames)
{
    static const int32_t zeros[128];
    int64_t held[64] = {0};
    size_t b, N = (size_t)p->width;

    for (b = 0; b < blocks; b++)
        take(p, held, readings + b * N, frames + b * N);
    take(p, held, zeros, frames + blocks * N);
}

static void back(const struct plain *p, const int32_t *frames, size_t blocks, int32_t *readings)
{
    int64_t held[64];
    size_t f, N = (size_t)p->width;

    back_take(p, held, 1, frames, NULL);
    for (f = 1; f <= blocks; f++)
        back_take(p, held, 0, frames + f * N, readings + (f - 1) * N);
}

const struct peer PEER = {FLAGS, start, take, back_take, sum, forward, back};
