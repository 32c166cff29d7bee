#define _DEFAULT_SOURCE
#include "compare.h"

#include "lapped.h"
#include "reference.h"

#include <inttypes.h>
#include <stdio.h>
#include <stdlib.h>
#include <string.h>
#include <sys/mman.h>
#include <unistd.h>

enum { ANSWERS = 20 };

/* ---- random numbers */

static uint64_t state;

void seed(uint64_t from)
{
    state = from;
}

uint64_t next(void)
{
    uint64_t z = state += 0x9e3779b97f4a7c15u;

    z = (z ^ z >> 30) * 0xbf58476d1ce4e5b9u;
    z = (z ^ z >> 27) * 0x94d049bb133111ebu;
    return z ^ z >> 31;
}

size_t below(size_t n)
{
    return (size_t)(next() % n);
}

bool once_in(size_t n)
{
    return below(n) == 0;
}

/* ---- memory that is lent, at the edge of what may be touched */

struct lent {
    char *low, *high;
};

static struct lent room(size_t bytes)
{
    size_t page = (size_t)sysconf(_SC_PAGESIZE), length = (bytes + page - 1) / page * page;
    char *at = mmap(NULL, length + 2 * page, PROT_NONE, MAP_PRIVATE | MAP_ANONYMOUS, -1, 0);
    struct lent lent;

    if (at == MAP_FAILED || mprotect(at + page, length, PROT_READ | PROT_WRITE) != 0) {
        perror("room");
        exit(2);
    }
    lent.low = at + page;
    lent.high = at + page + length;
    return lent;
}

static void *lend(const struct lent *lent, size_t bytes, bool high)
{
    return high ? lent->high - bytes : lent->low;
}

/* one input, and for the archive and the reference each an output and a record */
static struct lent input_room, output_room[2], record_room[2];

void make_room(size_t numbers)
{
    int i;

    input_room = room(numbers * sizeof(int32_t));
    for (i = 0; i < 2; i++) {
        output_room[i] = room(numbers * sizeof(int32_t));
        record_room[i] = room((LAPPED_RUN_LENGTH + 1) * sizeof(int64_t));
    }
}

/* ---- the count */

static const char *const names[ENTRIES] = {
    "start", "take", "finish", "back_take", "back_finish", "forward", "back", "stages", "unstages", "valve_ask", "valve_make"
};

static uint64_t tally[ENTRIES][ANSWERS], by_width[4], calls, differences;

struct told {
    uint32_t answer;
    size_t place;
};

static void compare(enum entry entry, size_t width, const struct told *told, bool same)
{
    calls++;
    by_width[width == 8 ? 0 : width == 32 ? 1 : width == 128 ? 2 : 3]++;
    if (told[1].answer < ANSWERS)
        tally[entry][told[1].answer]++;
    if (told[0].answer == told[1].answer && told[0].place == told[1].place && same)
        return;
    if (differences++ < 20)
        printf("call %" PRIu64 ", %s at width %zu: the archive says %u at %zu, the reference %u at %zu%s\n", calls,
               names[entry], width, (unsigned)told[0].answer, told[0].place, (unsigned)told[1].answer, told[1].place,
               same ? "" : ", and they wrote other numbers");
}

void expect(bool holds, const char *what)
{
    if (!holds && differences++ < 20)
        printf("call %" PRIu64 ": %s\n", calls, what);
}

/* ---- what is lent to one call: copies for each, all of the room compared afterwards */

struct call {
    const int32_t *input;
    size_t input_length, output_length, run_length;
    int32_t *output[2];
    int64_t *run[2];
};

/* what stands in an output before the call: any numbers, zeros, numbers of 16 bits, or these and one that just has more */
static int32_t before_call(size_t kind, bool chosen)
{
    static const int32_t edges[4] = {32767, -32768, 32768, -32769};

    switch (kind) {
    case 0: return (int32_t)next();
    case 1: return 0;
    case 2: return once_in(4) ? edges[below(2)] : (int16_t)next();
    default: return chosen ? edges[2 + below(2)] : (int16_t)next();
    }
}

static void lend_call(struct call *c, const int32_t *input, size_t input_length, size_t output_length,
                      const int64_t *run, size_t run_length)
{
    bool high = below(4) != 0;
    int32_t *copy = lend(&input_room, input_length * sizeof *copy, high);
    size_t kind = below(4);
    int chosen = (int)below(output_length + 1), i;

    if (input_length > 0)
        memcpy(copy, input, input_length * sizeof *copy);
    c->input = copy;
    c->input_length = input_length;
    c->output_length = output_length;
    c->run_length = run_length;
    for (i = 0; i < 2; i++) {
        c->output[i] = lend(&output_room[i], output_length * sizeof *c->output[i], high);
        c->run[i] = lend(&record_room[i], run_length * sizeof *c->run[i], high);
    }
    for (i = -4; i < (int)output_length + 4; i++) {
        char *at = (char *)(c->output[1] + i);
        int32_t old = before_call(kind, i == chosen);

        if (at < output_room[1].low || at >= output_room[1].high)
            continue;
        c->output[0][i] = c->output[1][i] = old;
    }
    for (i = 0; i < (int)run_length; i++)
        c->run[0][i] = c->run[1][i] = run[i];
}

/* the same numbers were left, in the records, the outputs and beside them, and none of the input was changed */
static bool same_left(const struct call *c, const int32_t *input)
{
    const char *from = (const char *)(c->output[1] - 4), *to = (const char *)(c->output[1] + c->output_length + 4);

    if (from < output_room[1].low)
        from = output_room[1].low;
    if (to > output_room[1].high)
        to = output_room[1].high;
    return memcmp(from, output_room[0].low + (from - output_room[1].low), (size_t)(to - from)) == 0
        && memcmp(c->run[0], c->run[1], c->run_length * sizeof *c->run[0]) == 0
        && (input == NULL || memcmp(c->input, input, c->input_length * sizeof *input) == 0);
}

uint32_t with_record(enum entry entry, int64_t *run, size_t run_length, const int32_t *input, size_t input_length,
                     int32_t *out, size_t output_length)
{
    static const int32_t none[1];
    struct told t[2] = {{0, 77}, {0, 78}};
    struct call c;
    size_t width = run_length > 0 ? (size_t)run[0] : 0;

    lend_call(&c, input == NULL ? none : input, input_length, output_length, run, run_length);
    switch (entry) {
    case TAKE:
        t[0].answer = lapped_take(c.run[0], run_length, c.input, input_length, c.output[0], output_length, &t[0].place);
        t[1].answer = reference_take(c.run[1], run_length, c.input, input_length, c.output[1], output_length, &t[1].place);
        break;
    case FINISH:
        t[0].answer = lapped_finish(c.run[0], run_length, c.output[0], output_length, &t[0].place);
        t[1].answer = reference_finish(c.run[1], run_length, c.output[1], output_length, &t[1].place);
        break;
    case BACK_TAKE:
        t[0].answer = lapped_back_take(c.run[0], run_length, c.input, input_length, c.output[0], output_length, &t[0].place);
        t[1].answer = reference_back_take(c.run[1], run_length, c.input, input_length, c.output[1], output_length, &t[1].place);
        break;
    default:
        t[0].answer = lapped_back_finish(c.run[0], run_length, &t[0].place);
        t[1].answer = reference_back_finish(c.run[1], run_length, &t[1].place);
        break;
    }
    compare(entry, width, t, same_left(&c, input == NULL ? none : input));
    memcpy(run, c.run[1], run_length * sizeof *run);
    if (out != NULL && output_length > 0)
        memcpy(out, c.output[1], output_length * sizeof *out);
    return t[1].answer;
}

uint32_t start(size_t width, int64_t *run, size_t run_length)
{
    struct told t[2] = {{0, 77}, {0, 78}};
    struct call c;

    lend_call(&c, NULL, 0, 0, run, run_length);
    t[0].answer = lapped_start(width, c.run[0], run_length, &t[0].place);
    t[1].answer = reference_start(width, c.run[1], run_length, &t[1].place);
    compare(START, width, t, same_left(&c, NULL));
    memcpy(run, c.run[1], run_length * sizeof *run);
    return t[1].answer;
}

typedef uint32_t widthwise(size_t, const int32_t *, size_t, int32_t *, size_t, size_t *);

uint32_t with_width(enum entry entry, size_t width, const int32_t *input, size_t input_length, int32_t *out,
                    size_t output_length)
{
    static widthwise *const archive[] = {lapped_forward, lapped_back, lapped_stages, lapped_unstages};
    static widthwise *const reference[] = {reference_forward, reference_back, reference_stages, reference_unstages};
    struct told t[2] = {{0, 77}, {0, 78}};
    struct call c;

    lend_call(&c, input, input_length, output_length, NULL, 0);
    t[0].answer = archive[entry - FORWARD](width, c.input, input_length, c.output[0], output_length, &t[0].place);
    t[1].answer = reference[entry - FORWARD](width, c.input, input_length, c.output[1], output_length, &t[1].place);
    compare(entry, width, t, same_left(&c, input));
    if (out != NULL && output_length > 0)
        memcpy(out, c.output[1], output_length * sizeof *out);
    return t[1].answer;
}

/* two numbers are lent in an output of three: apart from each other, and either one first */
enum { APART = 3 };

static size_t either_end(void)
{
    return below(2) * (APART - 1);
}

uint32_t valve_ask(size_t width, struct valve valve, const int32_t *block, size_t block_length, struct ticket *ticket)
{
    struct told t[2] = {{0, 77}, {0, 78}};
    struct call c;
    size_t move = either_end(), count = APART - 1 - move;

    lend_call(&c, block, block_length, APART, NULL, 0);
    t[0].answer = lapped_valve_ask(width, valve.position, valve.count, c.input, block_length, c.output[0] + move,
                                   c.output[0] + count, &t[0].place);
    t[1].answer = reference_valve_ask(width, valve.position, valve.count, c.input, block_length, c.output[1] + move,
                                      c.output[1] + count, &t[1].place);
    compare(VALVE_ASK, width, t, same_left(&c, block));
    if (t[1].answer == LAPPED_DONE) {
        ticket->move = c.output[1][move];
        ticket->count = c.output[1][count];
    }
    return t[1].answer;
}

uint32_t valve_make(struct valve *valve, struct ticket ticket)
{
    struct told t[2] = {{0, 77}, {0, 78}};
    struct call c;
    size_t position = either_end(), count = APART - 1 - position;
    int i;

    lend_call(&c, NULL, 0, APART, NULL, 0);
    for (i = 0; i < 2; i++) {
        c.output[i][position] = valve->position;
        c.output[i][count] = valve->count;
    }
    t[0].answer = lapped_valve_make(c.output[0] + position, c.output[0] + count, ticket.move, ticket.count, &t[0].place);
    t[1].answer = reference_valve_make(c.output[1] + position, c.output[1] + count, ticket.move, ticket.count, &t[1].place);
    compare(VALVE_MAKE, 0, t, same_left(&c, NULL));
    valve->position = c.output[1][position];
    valve->count = c.output[1][count];
    return t[1].answer;
}

/* 13 to 16 are refusals of the text programs */
static bool of_functions(size_t answer)
{
    return answer < 13 || answer > 16;
}

/* each entry gives the answers that the header lists, and no others */
static void met(void)
{
    static const char *const answers[ENTRIES] = {
        "0 1 2", "0 2 3 4 6 7 8 9", "0 2 3 7", "0 2 3 4 6 7 9 10 11 12", "0 2 3 5 11", "0 1 6 7 8 9", "0 1 6 7 9 10 11 12", "0 1 6 7 10",
        "0 1 6 7 9 10", "0 1 6 8 9 17", "0 17 18 19"
    };
    size_t e, a;

    for (e = 0; e < ENTRIES; e++) {
        char list[4 * ANSWERS] = "";

        for (a = 0; a < ANSWERS; a++)
            if (tally[e][a] > 0)
                sprintf(list + strlen(list), "%s%zu", *list == 0 ? "" : " ", a);
        if (strcmp(list, answers[e]) != 0) {
            printf("%s: the calls met %s, and should meet %s\n", names[e], list, answers[e]);
            differences++;
        }
    }
}

uint64_t report(void)
{
    uint64_t sum[ANSWERS] = {0}, all;
    size_t e, a;

    met();
    printf("%-12s", "answer");
    for (a = 0; a < ANSWERS; a++)
        if (of_functions(a))
            printf("%8zu", a);
    printf("%10s\n", "calls");
    for (e = 0; e < ENTRIES; e++) {
        printf("%-12s", names[e]);
        for (all = 0, a = 0; a < ANSWERS; a++) {
            if (of_functions(a))
                printf("%8" PRIu64, tally[e][a]);
            sum[a] += tally[e][a];
            all += tally[e][a];
        }
        printf("%10" PRIu64 "\n", all);
    }
    printf("%-12s", "all");
    for (a = 0; a < ANSWERS; a++)
        if (of_functions(a))
            printf("%8" PRIu64, sum[a]);
    printf("%10" PRIu64 "\n", calls);
    printf("at width 8: %" PRIu64 ", 32: %" PRIu64 ", 128: %" PRIu64 ", at no width: %" PRIu64 "\n", by_width[0], by_width[1],
           by_width[2], by_width[3]);
    printf("%" PRIu64 " calls, %" PRIu64 " differ\n", calls, differences);
    return differences;
}
