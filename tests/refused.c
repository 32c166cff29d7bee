/*
 * A refused call stores nothing but *place, at no moment: for each entry and each number that it can give, at each
 * width, the record and the output lie on a page that may only be read, and so do the ticket of an ask, and the
 * position and count of a make. A store there ends this program by a signal.
 */
#define _DEFAULT_SOURCE
#include "lapped.h"
#include <stdio.h>
#include <stdlib.h>
#include <string.h>
#include <sys/mman.h>

/* BEFORE: the length of a record for a caller that was compiled against version 1 */
enum { PAGE = 65536, ROOM = 4 * LAPPED_WIDTH_MAX, BEFORE = 67 };

static int64_t *run;    /* at the page's start */
static int32_t *output; /* behind it */
static size_t width;
static int tried, wrong;

static void fresh(void)
{
    size_t place;
    lapped_start(width, run, LAPPED_RUN_LENGTH, &place);
    for (int i = 0; i < ROOM; i++)
        output[i] = 1000003 + i;
}

/* The call between guard and told may only read the page. */
static void guard(void)
{
    if (mprotect(run, PAGE, PROT_READ)) {
        perror("mprotect");
        exit(2);
    }
}

static void told(const char *entry, uint32_t answer, uint32_t wanted)
{
    if (mprotect(run, PAGE, PROT_READ | PROT_WRITE))
        exit(2);
    tried++;
    if (answer != wanted) {
        wrong++;
        printf("%s at width %zu answers %u, not %u\n", entry, width, (unsigned)answer, (unsigned)wanted);
    }
    fresh();
}

#define REFUSED(entry, wanted, ...) do { size_t place; guard(); uint32_t a = entry(__VA_ARGS__, &place); told(#entry, a, wanted); } while (0)
#define RUN run, LAPPED_RUN_LENGTH

/* The frame of these folded values. */
static void frame_of(const int32_t *folded, int32_t *frame)
{
    size_t place;
    if (lapped_stages(width, folded, width, frame, width, &place) != LAPPED_DONE)
        exit(2);
}

/* Folded values of one number in the lower half, or the upper one. */
static void halves(int32_t lower, int32_t upper, int32_t *frame)
{
    int32_t folded[LAPPED_WIDTH_MAX];
    for (size_t i = 0; i < width; i++)
        folded[i] = i < width / 2 ? lower : upper;
    frame_of(folded, frame);
}

static void closed(void) { run[LAPPED_RUN_FINISHED] = 1; }
static void unsound(void) { run[LAPPED_RUN_WIDTH] = 9; }
static void count(int64_t n) { run[LAPPED_RUN_COUNT] = n; }
static void total(int64_t n) { run[LAPPED_RUN_TOTAL] = n; }
/* a record of one block of the greatest readings */
static void greatest(void)
{
    count(1);
    total((int64_t)width * LAPPED_READING_MAX);
}
static void hold(int64_t value)
{
    count(1);
    for (size_t i = 0; i < width / 2; i++)
        run[LAPPED_RUN_HELD + i] = value;
}

static void calls_forward(void)
{
    int32_t block[LAPPED_WIDTH_MAX + 1] = {0};
    size_t n = width;
    REFUSED(lapped_start, LAPPED_RECORD, width, run, BEFORE);
    REFUSED(lapped_start, LAPPED_WIDTH, width + 1, run, BEFORE);
    REFUSED(lapped_take, LAPPED_RECORD, run, BEFORE, block, n, output, n);
    REFUSED(lapped_finish, LAPPED_RECORD, run, BEFORE, output, n);
    unsound();
    REFUSED(lapped_take, LAPPED_RECORD, RUN, block, n, output, n);
    total(1);
    REFUSED(lapped_take, LAPPED_RECORD, RUN, block, n, output, n);
    closed();
    REFUSED(lapped_take, LAPPED_CLOSED, RUN, block, n, output, n);
    count(LAPPED_BLOCKS_MAX);
    REFUSED(lapped_take, LAPPED_FULL, RUN, block, n, output, n);
    greatest();
    REFUSED(lapped_take, LAPPED_INPUT_LENGTH, RUN, block, n + 1, output, n);
    REFUSED(lapped_take, LAPPED_OUTPUT_LENGTH, RUN, block, n, output, n - 1);
    block[n - 1] = 32768;
    REFUSED(lapped_take, LAPPED_RANGE, RUN, block, n, output, n);
    block[n - 2] = LAPPED_DEAD_READING;
    REFUSED(lapped_take, LAPPED_DEAD_MARK, RUN, block, n, output, n);
    unsound();
    REFUSED(lapped_finish, LAPPED_RECORD, RUN, output, n);
    total(-1);
    REFUSED(lapped_finish, LAPPED_RECORD, RUN, output, n);
    greatest();
    closed();
    REFUSED(lapped_finish, LAPPED_CLOSED, RUN, output, n);
    REFUSED(lapped_finish, LAPPED_OUTPUT_LENGTH, RUN, output, n + 1);
}

static void calls_back(void)
{
    int32_t frame[LAPPED_WIDTH_MAX + 1] = {0};
    size_t n = width;
    REFUSED(lapped_back_take, LAPPED_RECORD, run, BEFORE, frame, n, output, n);
    REFUSED(lapped_back_take, LAPPED_RECORD, run, LAPPED_RUN_LENGTH + 1, frame, n, output, n);
    count(1);
    REFUSED(lapped_back_finish, LAPPED_RECORD, run, BEFORE);
    unsound();
    REFUSED(lapped_back_take, LAPPED_RECORD, RUN, frame, n, output, n);
    greatest();
    REFUSED(lapped_back_take, LAPPED_RECORD, RUN, frame, n, output, n);
    closed();
    REFUSED(lapped_back_take, LAPPED_CLOSED, RUN, frame, n, output, n);
    count(LAPPED_BLOCKS_MAX + 1);
    REFUSED(lapped_back_take, LAPPED_FULL, RUN, frame, n, output, n);
    REFUSED(lapped_back_take, LAPPED_INPUT_LENGTH, RUN, frame, n - 1, output, n);
    REFUSED(lapped_back_take, LAPPED_OUTPUT_LENGTH, RUN, frame, n, output, n + 1);
    frame[n - 1] = LAPPED_COEFFICIENT_MAX + 1;
    REFUSED(lapped_back_take, LAPPED_RANGE, RUN, frame, n, output, n);
    memset(frame, 0, sizeof frame);
    frame[0] = LAPPED_COEFFICIENT_MAX;
    REFUSED(lapped_back_take, LAPPED_FOLDED, RUN, frame, n, output, n);
    halves(0, 7, frame);
    REFUSED(lapped_back_take, LAPPED_HALVES, RUN, frame, n, output, n);
    halves(0, LAPPED_FOLDED_MAX, frame);
    hold(LAPPED_FOLDED_MAX);
    REFUSED(lapped_back_take, LAPPED_UNFOLDED, RUN, frame, n, output, n);
    hold(LAPPED_FOLDED_MAX);
    greatest();
    count(2);
    REFUSED(lapped_back_take, LAPPED_UNFOLDED, RUN, frame, n, output, n);
    unsound();
    REFUSED(lapped_back_finish, LAPPED_RECORD, RUN);
    greatest();
    REFUSED(lapped_back_finish, LAPPED_RECORD, RUN);
    closed();
    REFUSED(lapped_back_finish, LAPPED_CLOSED, RUN);
    REFUSED(lapped_back_finish, LAPPED_EMPTY, RUN);
    hold(1);
    REFUSED(lapped_back_finish, LAPPED_HALVES, RUN);
}

static void whole_runs(void)
{
    int32_t readings[ROOM] = {0}, frames[ROOM] = {0};
    size_t n = width, place;
    REFUSED(lapped_forward, LAPPED_WIDTH, n + 1, readings, 2 * n, output, 3 * n);
    REFUSED(lapped_forward, LAPPED_INPUT_LENGTH, n, readings, 2 * n - 1, output, 3 * n);
    REFUSED(lapped_forward, LAPPED_OUTPUT_LENGTH, n, readings, 2 * n, output, 2 * n);
    readings[2 * n - 1] = -32769;
    REFUSED(lapped_forward, LAPPED_RANGE, n, readings, 2 * n, output, 3 * n);
    readings[2 * n - 1] = LAPPED_DEAD_READING;
    REFUSED(lapped_forward, LAPPED_DEAD_MARK, n, readings, 2 * n, output, 3 * n);
    REFUSED(lapped_back, LAPPED_WIDTH, 0, frames, 3 * n, output, 2 * n);
    REFUSED(lapped_back, LAPPED_INPUT_LENGTH, n, frames, 3 * n + 1, output, 2 * n);
    REFUSED(lapped_back, LAPPED_OUTPUT_LENGTH, n, frames, 3 * n, output, 3 * n);
    /* a good run whose last frame is refused */
    for (size_t i = 0; i < 2 * n; i++)
        readings[i] = (int32_t)(i * 37 % 2001) - 1000;
    if (lapped_forward(n, readings, 2 * n, frames, 3 * n, &place) != LAPPED_DONE)
        exit(2);
    REFUSED(lapped_back, LAPPED_HALVES, n, frames, 2 * n, output, n);
    frames[2 * n] += 40;
    REFUSED(lapped_back, LAPPED_HALVES, n, frames, 3 * n, output, 2 * n);
    halves(0, LAPPED_FOLDED_MAX, frames + 2 * n);
    REFUSED(lapped_back, LAPPED_UNFOLDED, n, frames, 3 * n, output, 2 * n);
    frames[2 * n] = LAPPED_COEFFICIENT_MAX;
    REFUSED(lapped_back, LAPPED_FOLDED, n, frames, 3 * n, output, 2 * n);
    frames[3 * n - 1] = -LAPPED_COEFFICIENT_MAX - 1;
    REFUSED(lapped_back, LAPPED_RANGE, n, frames, 3 * n, output, 2 * n);
}

static void stages_alone(void)
{
    int32_t folded[LAPPED_WIDTH_MAX + 1] = {0}, frame[LAPPED_WIDTH_MAX + 1] = {0};
    size_t n = width;
    REFUSED(lapped_stages, LAPPED_WIDTH, n - 1, folded, n, output, n);
    REFUSED(lapped_stages, LAPPED_INPUT_LENGTH, n, folded, n + 1, output, n);
    REFUSED(lapped_stages, LAPPED_OUTPUT_LENGTH, n, folded, n, output, n + 1);
    folded[n - 1] = LAPPED_FOLDED_MAX + 1;
    REFUSED(lapped_stages, LAPPED_FOLDED, n, folded, n, output, n);
    REFUSED(lapped_unstages, LAPPED_WIDTH, n + 8, frame, n, output, n);
    REFUSED(lapped_unstages, LAPPED_INPUT_LENGTH, n, frame, n - 1, output, n);
    REFUSED(lapped_unstages, LAPPED_OUTPUT_LENGTH, n, frame, n, output, n - 1);
    frame[0] = LAPPED_COEFFICIENT_MAX;
    REFUSED(lapped_unstages, LAPPED_FOLDED, n, frame, n, output, n);
    frame[n - 1] = LAPPED_COEFFICIENT_MAX + 1;
    REFUSED(lapped_unstages, LAPPED_RANGE, n, frame, n, output, n);
}

/* Two numbers of the output: the ticket of an ask, or the position and the count of a make. */
#define TWO output, output + 1

static void valve_is(int32_t position, int32_t count)
{
    output[0] = position;
    output[1] = count;
}

static void asks(void)
{
    int32_t block[LAPPED_WIDTH_MAX + 1] = {0};
    size_t n = width;
    REFUSED(lapped_valve_ask, LAPPED_WIDTH, n + 1, 5000, 7, block, n + 1, TWO);
    REFUSED(lapped_valve_ask, LAPPED_INPUT_LENGTH, n, 5000, 7, block, n - 1, TWO);
    REFUSED(lapped_valve_ask, LAPPED_LIMITS, n, -1, 7, block, n, TWO);
    REFUSED(lapped_valve_ask, LAPPED_LIMITS, n, LAPPED_VALVE_TRAVEL + 1, 7, block, n, TWO);
    REFUSED(lapped_valve_ask, LAPPED_LIMITS, n, 5000, -1, block, n, TWO);
    REFUSED(lapped_valve_ask, LAPPED_LIMITS, n, 5000, LAPPED_MOVES_MAX + 1, block, n, TWO);
    block[n - 1] = 32768;
    REFUSED(lapped_valve_ask, LAPPED_RANGE, n, 5000, 7, block, n, TWO);
    block[n - 2] = LAPPED_DEAD_READING;
    REFUSED(lapped_valve_ask, LAPPED_DEAD_MARK, n, 5000, 7, block, n, TWO);
}

static void makes(void)
{
    valve_is(LAPPED_VALVE_TRAVEL + 1, 7);
    REFUSED(lapped_valve_make, LAPPED_LIMITS, TWO, -1, 7);
    valve_is(5000, -1);
    REFUSED(lapped_valve_make, LAPPED_LIMITS, TWO, 0, -1);
    valve_is(5000, 7);
    REFUSED(lapped_valve_make, LAPPED_LIMITS, TWO, LAPPED_MOVE_MAX + 1, 7);
    valve_is(LAPPED_MOVE_MAX - 1, 7);
    REFUSED(lapped_valve_make, LAPPED_LIMITS, TWO, -LAPPED_MOVE_MAX, 7);
    valve_is(5000, LAPPED_MOVES_MAX);
    REFUSED(lapped_valve_make, LAPPED_ALL_MADE, TWO, 1, LAPPED_MOVES_MAX);
    valve_is(5000, 7);
    REFUSED(lapped_valve_make, LAPPED_OTHER_COUNT, TWO, 1, 6);
}

int main(void)
{
    void *page = mmap(NULL, PAGE, PROT_READ | PROT_WRITE, MAP_PRIVATE | MAP_ANONYMOUS, -1, 0);
    if (page == MAP_FAILED) {
        perror("mmap");
        return 2;
    }
    run = page;
    output = (int32_t *)(run + LAPPED_RUN_LENGTH);
    for (width = 8; width <= 128; width *= 4) {
        fresh();
        calls_forward();
        calls_back();
        whole_runs();
        stages_alone();
        asks();
        makes();
    }
    printf("%d refused calls with record and output on a page that may only be read, %d answered otherwise\n", tried, wrong);
    return wrong != 0;
}
