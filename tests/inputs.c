#include "inputs.h"

#include "compare.h"

int32_t within(int32_t limit)
{
    return (int32_t)below(2 * (size_t)limit + 1) - limit;
}

size_t good_width(void)
{
    static const size_t widths[10] = {8, 8, 8, 8, 8, 8, 32, 32, 32, 128};

    return widths[below(10)];
}

size_t bad_width(void)
{
    static const size_t widths[] = {0, 1, 4, 7, 9, 16, 31, 33, 64, 127, 129, 256, (size_t)1 << 32, ((size_t)1 << 32) + 8,
                                    (size_t)1 << 63, ((size_t)1 << 63) + 32, SIZE_MAX, SIZE_MAX - 7, 255, 264};

    return widths[below(sizeof widths / sizeof *widths)];
}

static int32_t edge(int32_t limit)
{
    switch (below(8)) {
    case 0: return limit;
    case 1: return -limit;
    case 2: return limit - 1;
    case 3: return 1 - limit;
    case 4: return 1;
    case 5: return -1;
    default: return 0;
    }
}

void fill(int32_t *x, size_t count, int32_t limit)
{
    size_t kind = below(8), i;
    int32_t level = once_in(2) ? edge(limit) : within(limit);

    for (i = 0; i < count; i++)
        switch (kind) {
        case 0: x[i] = within(limit < 100 ? limit : 100); break;
        case 1: x[i] = edge(limit); break;
        case 2: x[i] = once_in(8) ? within(limit) : 0; break;
        case 3: x[i] = level; break;
        case 4: x[i] = i % 2 == 0 ? level : -level; break;
        default: x[i] = within(limit); break;
        }
}

void damage(int32_t *x, size_t count, int32_t limit)
{
    const int32_t bad[] = {limit + 1, -limit - 1, limit + 2, -limit - 2, INT32_MIN, INT32_MAX, 2 * limit, INT32_MIN + limit};
    size_t times = 1 + below(3);

    while (count > 0 && times-- > 0)
        x[below(count)] = bad[below(sizeof bad / sizeof *bad)];
}

void nudge(int32_t *x, size_t count)
{
    if (count > 0)
        x[below(count)] += within(3);
}

size_t off_by_one(size_t n)
{
    switch (below(4)) {
    case 0: return n + 1;
    case 1: return n > 0 ? n - 1 : 1;
    case 2: return 0;
    default: return n == 8 ? 32 : 8;
    }
}
