/*
 * The mill's case, for comparison: a program that keeps readings as floats and marks the gauge's dead reading by NaN.
 * With -ffast-math the compiler takes it that there is no NaN, and the check is gone. The archive, called from the
 * same build, is handed the reading as the gauge gives it.
 *
 *     dead_reading READING        tells what both say of it, as the fourth of a block of eight
 */
#include "lapped.h"
#include <math.h>
#include <stdio.h>
#include <stdlib.h>

static float weight_of(long reading)
{
    return reading == LAPPED_DEAD_READING ? NAN : (float)reading / 100.0f;
}

static int is_dead(float weight)
{
    return weight != weight;
}

int main(int count, char **words)
{
    long reading = count > 1 ? strtol(words[1], NULL, 10) : LAPPED_DEAD_READING;
    int64_t run[LAPPED_RUN_LENGTH];
    int32_t block[8] = {0}, frame[8];
    size_t place;
    uint32_t answer;

    printf("the float check: %s\n", is_dead(weight_of(reading)) ? "dead" : "a good weight");
    block[3] = (int32_t)reading;
    if (lapped_start(8, run, LAPPED_RUN_LENGTH, &place) != LAPPED_DONE)
        return 2;
    answer = lapped_take(run, LAPPED_RUN_LENGTH, block, 8, frame, 8, &place);
    printf("the archive: %u at place %zu\n", (unsigned)answer, place);
    return 0;
}
