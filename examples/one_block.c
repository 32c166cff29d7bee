/*
 * The paper's sample: one block of width 8 and the finish, forward and back, block by block, with the total of the
 * readings, and as a whole run.
 *
 *     cc -I include examples/one_block.c target/staticlib/liblapped.a -o one_block
 */
#include "lapped.h"

#include <stdio.h>

enum { WIDTH = 8 };

static void print(const char *name, const int32_t *numbers, size_t count)
{
    size_t i;

    printf("%s", name);
    for (i = 0; i < count; i++)
        printf("%s%ld", i == 0 ? " " : ",", (long)numbers[i]);
    printf("\n");
}

/* 1 where the answer is no LAPPED_DONE, with a line that says so. */
static int refused(const char *call, uint32_t answer, const size_t *place)
{
    if (answer == LAPPED_DONE)
        return 0;
    printf("%s: refused, %lu at %lu\n", call, (unsigned long)answer, (unsigned long)*place);
    return 1;
}

/* Each frame as its call leaves it: the block's, then the finish's. */
static int forward(int64_t *run, const int32_t *block, int32_t *frames)
{
    size_t place;

    return refused("start", lapped_start(WIDTH, run, LAPPED_RUN_LENGTH, &place), &place)
        || refused("take", lapped_take(run, LAPPED_RUN_LENGTH, block, WIDTH, frames, WIDTH, &place), &place)
        || refused("finish", lapped_finish(run, LAPPED_RUN_LENGTH, frames + WIDTH, WIDTH, &place), &place);
}

/* The first frame only starts the run; the second gives the block. */
static int back(int64_t *run, const int32_t *frames, int32_t *block)
{
    size_t place;

    return refused("start", lapped_start(WIDTH, run, LAPPED_RUN_LENGTH, &place), &place)
        || refused("back_take", lapped_back_take(run, LAPPED_RUN_LENGTH, frames, WIDTH, block, WIDTH, &place), &place)
        || refused("back_take", lapped_back_take(run, LAPPED_RUN_LENGTH, frames + WIDTH, WIDTH, block, WIDTH, &place), &place)
        || refused("back_finish", lapped_back_finish(run, LAPPED_RUN_LENGTH, &place), &place);
}

int main(void)
{
    const int32_t block[WIDTH] = {100, 0, 0, 0, 0, 0, 0, 0};
    const int32_t dead[WIDTH] = {100, 0, LAPPED_DEAD_READING, 0, 0, 0, 0, 0};
    int32_t frames[2 * WIDTH], again[2 * WIDTH], readings[WIDTH];
    int64_t run[LAPPED_RUN_LENGTH];
    size_t place;
    uint32_t answer;

    print("block", block, WIDTH);
    if (forward(run, block, frames))
        return 1;
    print("frame 0", frames, WIDTH);
    print("frame 1", frames + WIDTH, WIDTH);
    printf("total %ld\n", (long)run[LAPPED_RUN_TOTAL]);
    if (back(run, frames, readings))
        return 1;
    print("back", readings, WIDTH);
    printf("total %ld\n", (long)run[LAPPED_RUN_TOTAL]);

    if (refused("forward", lapped_forward(WIDTH, block, WIDTH, again, 2 * WIDTH, &place), &place))
        return 1;
    print("whole run", again, 2 * WIDTH);
    if (refused("back", lapped_back(WIDTH, again, 2 * WIDTH, readings, WIDTH, &place), &place))
        return 1;
    print("and back", readings, WIDTH);

    answer = lapped_forward(WIDTH, dead, WIDTH, again, 2 * WIDTH, &place);
    if (answer == LAPPED_DEAD_MARK)
        printf("a dead gauge at place %lu\n", (unsigned long)place);
    return 0;
}
