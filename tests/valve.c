#include "valve.h"

#include "compare.h"
#include "inputs.h"
#include "lapped.h"

#include <string.h>

enum { WIDEST = LAPPED_WIDTH_MAX, TRAVEL = LAPPED_VALVE_TRAVEL, STEPS = LAPPED_MOVE_MAX, MOVES = LAPPED_MOVES_MAX, KEPT = 30, IN_TRAVEL = 14 };

#define LENGTH(list) (sizeof(list) / sizeof *(list))

/* ---- numbers at their limits */

/* the first IN_TRAVEL are in the travel */
static const int32_t positions[] = {
    0, 1, 2, 299, 300, STEPS - 1, STEPS, STEPS + 1, 5000, TRAVEL - STEPS - 1, TRAVEL - STEPS, TRAVEL - STEPS + 1, TRAVEL - 1, TRAVEL,
    -1, TRAVEL + 1, -STEPS, TRAVEL + STEPS, INT32_MIN, INT32_MIN + STEPS, INT32_MAX, INT32_MAX - STEPS, 1 << 16
};

static const int32_t counts[] = {0, 1, 2, 5000, MOVES - 1, MOVES, -1, MOVES + 1, INT32_MIN, INT32_MAX, INT32_MAX - 1};

static const int32_t moves[] = {
    0, 1, -1, 299, -300, STEPS - 1, STEPS, STEPS + 1, 1 - STEPS, -STEPS, -STEPS - 1, TRAVEL, -TRAVEL, INT32_MIN, INT32_MIN + 1, INT32_MAX
};

static int32_t one_of(const int32_t *list, size_t length)
{
    return list[below(length)];
}

/* what 32 bits hold of it */
static int32_t wrapped(int64_t x)
{
    return (int32_t)(uint32_t)x;
}

static int32_t any_position(void)
{
    return once_in(2) ? (int32_t)below(TRAVEL + 1) : one_of(positions, LENGTH(positions));
}

static int32_t any_count(void)
{
    return once_in(2) ? (int32_t)below(MOVES + 1) : one_of(counts, LENGTH(counts));
}

static int32_t any_move(void)
{
    return once_in(2) ? within(STEPS) : once_in(8) ? (int32_t)next() : one_of(moves, LENGTH(moves));
}

static bool fits(struct valve valve)
{
    return 0 <= valve.position && valve.position <= TRAVEL && 0 <= valve.count && valve.count <= MOVES;
}

/* ---- asks */

static int64_t total_of(const int32_t *block, size_t count)
{
    int64_t total = 0;
    size_t i;

    for (i = 0; i < count; i++)
        total += block[i];
    return total;
}

/* what holds of every ticket */
static uint32_t asked(size_t N, struct valve valve, const int32_t *block, size_t length, struct ticket *ticket)
{
    uint32_t answer = valve_ask(N, valve, block, length, ticket);
    int64_t total = total_of(block, length);
    size_t i;

    if (answer != LAPPED_DONE)
        return answer;
    for (i = 0; i < length; i++)
        expect(-LAPPED_READING_MAX <= block[i] && block[i] <= LAPPED_READING_MAX, "a dead or wild reading has a ticket");
    expect(ticket->count == valve.count, "a ticket has another count");
    expect(-STEPS <= ticket->move && ticket->move <= STEPS, "a ticket's move is too great");
    expect(0 <= valve.position + ticket->move && valve.position + ticket->move <= TRAVEL, "a ticket leaves the travel");
    expect(ticket->move == 0 || (ticket->move < 0) == (total > 0), "a ticket's move is not against the total");
    return answer;
}

/* a block of this total, near its average, and then uneven; false where no readings have it */
static bool block_of(int64_t total, size_t N, int32_t *block)
{
    int64_t n = (int64_t)N, each = total / n, rest = total % n;
    size_t i, times;

    if (total < -n * LAPPED_READING_MAX || total > n * LAPPED_READING_MAX)
        return false;
    for (i = 0; i < N; i++)
        block[i] = (int32_t)(each + ((int64_t)i < rest ? 1 : (int64_t)i < -rest ? -1 : 0));
    for (times = below(2) * N; times > 0; times--) {
        int32_t *up = block + below(N), *down = block + below(N), off = within(1000);

        if (*up + off <= LAPPED_READING_MAX && *up + off >= -LAPPED_READING_MAX && *down - off <= LAPPED_READING_MAX
            && *down - off >= -LAPPED_READING_MAX) {
            *up += off;
            *down -= off;
        }
    }
    return true;
}

/* totals at, below and above so many times N, of either sign: cut toward zero, they ask for one step less below */
static void aim_total(size_t N, struct valve valve, int64_t times)
{
    static const int64_t offs[] = {-2, -1, 0, 1, 2};
    int32_t block[WIDEST];
    struct ticket ticket;
    size_t i;

    for (i = 0; i < LENGTH(offs); i++) {
        int64_t total = times * (int64_t)N + offs[i];

        if (block_of(total, N, block))
            asked(N, valve, block, N, &ticket);
        if (block_of(-total, N, block))
            asked(N, valve, block, N, &ticket);
    }
}

static void aim_asks(size_t N)
{
    static const int64_t times[] = {0, 1, 2, 3, 7, 100, STEPS - 1, STEPS, STEPS + 1, STEPS + 2, TRAVEL, 32766, 32767};
    size_t p, c, i;

    for (p = 0; p < LENGTH(positions); p++)
        for (c = 0; c < LENGTH(counts); c++) {
            struct valve valve = {positions[p], counts[c]};

            for (i = 0; i < LENGTH(times); i++)
                aim_total(N, valve, times[i]);
            /* the move that just reaches an end of the travel */
            for (i = 0; i < 3; i++) {
                aim_total(N, valve, (int64_t)i - 1 + valve.position);
                aim_total(N, valve, (int64_t)i - 1 + TRAVEL - valve.position);
            }
        }
}

/* a dead mark, or a reading out of range, at each place; both, and then the dead one is told wherever it stands */
static void aim_readings(size_t N)
{
    static const int32_t wild[] = {LAPPED_READING_MAX + 1, LAPPED_DEAD_READING - 1, INT32_MAX, INT32_MIN, 1 << 16, -(1 << 16)};
    const struct valve valve = {5000, 7}, beyond = {-1, 7};
    struct ticket ticket;
    int32_t block[WIDEST];
    size_t i, k;

    for (i = 0; i < N; i++) {
        fill(block, N, LAPPED_READING_MAX);
        block[i] = LAPPED_DEAD_READING;
        expect(asked(N, valve, block, N, &ticket) == LAPPED_DEAD_MARK, "a dead reading is not told");
        for (k = 0; k < LENGTH(wild); k++) {
            size_t at = below(N);

            fill(block, N, LAPPED_READING_MAX);
            block[i] = wild[k];
            expect(asked(N, valve, block, N, &ticket) == LAPPED_RANGE, "a reading out of range is not told");
            expect(asked(N, beyond, block, N, &ticket) == LAPPED_RANGE, "it is not told before 17");
            block[at] = LAPPED_DEAD_READING;
            expect(asked(N, valve, block, N, &ticket) == LAPPED_DEAD_MARK, "a dead reading is not told before it");
        }
    }
}

/* anything wrong, and several things at once: the question asked first answers */
static void asks(size_t times)
{
    int32_t block[2 * WIDEST];
    struct ticket ticket;

    while (times-- > 0) {
        struct valve valve = {any_position(), any_count()};
        size_t N = good_width(), length = once_in(8) ? off_by_one(N) : N;

        fill(block, length, once_in(2) ? LAPPED_READING_MAX : 2 * STEPS);
        if (once_in(4))
            damage(block, length, LAPPED_READING_MAX);
        asked(once_in(8) ? bad_width() : N, valve, block, length, &ticket);
    }
}

/* ---- makes */

/* the record before and after a make, whatever the ticket */
static uint32_t made(struct valve *valve, struct ticket ticket)
{
    struct valve before = *valve;
    uint32_t answer = valve_make(valve, ticket);

    if (answer != LAPPED_DONE) {
        expect(memcmp(&before, valve, sizeof before) == 0, "a refused make changes the record");
        return answer;
    }
    expect(fits(before) && fits(*valve), "a make works outside the limits");
    expect(valve->position == before.position + ticket.move, "the position does not take the move");
    expect(before.count == ticket.count && valve->count == before.count + 1, "a make of another count works, or the count does not rise");
    expect(valve_make(valve, ticket) != LAPPED_DONE, "a ticket works twice");
    return answer;
}

static void aim_make(struct valve valve, int32_t move)
{
    const int32_t near[] = {valve.count, wrapped((int64_t)valve.count + 1), wrapped((int64_t)valve.count - 1)};
    size_t i;

    for (i = 0; i < LENGTH(near) + LENGTH(counts); i++) {
        struct valve record = valve;
        struct ticket ticket = {move, i < LENGTH(near) ? near[i] : counts[i - LENGTH(near)]};

        made(&record, ticket);
    }
}

static void aim_makes(void)
{
    size_t p, c, i;

    for (p = 0; p < LENGTH(positions); p++)
        for (c = 0; c < LENGTH(counts); c++) {
            struct valve valve = {positions[p], counts[c]};

            for (i = 0; i < LENGTH(moves); i++)
                aim_make(valve, moves[i]);
            /* the move that just reaches an end of the travel */
            for (i = 0; i < 3; i++) {
                aim_make(valve, wrapped((int64_t)i - 1 - valve.position));
                aim_make(valve, wrapped((int64_t)i - 1 + TRAVEL - valve.position));
            }
        }
}

static void makes(size_t times)
{
    while (times-- > 0) {
        struct valve valve = {any_position(), any_count()};
        struct ticket ticket = {any_move(), once_in(4) ? any_count() : valve.count};

        made(&valve, ticket);
    }
}

/* ---- asks and makes one after another on one record */

struct series {
    struct valve valve;
    struct ticket tickets[KEPT]; /* as they were asked */
    size_t count, stale;         /* of these the first ones were asked before the last make that worked */
    int64_t worked;              /* the starting position plus the moves that worked */
};

static void series_ask(struct series *s)
{
    size_t N = good_width();
    int32_t block[WIDEST];

    fill(block, N, once_in(2) ? LAPPED_READING_MAX : 2 * STEPS);
    if (once_in(6))
        damage(block, N, LAPPED_READING_MAX);
    if (asked(N, s->valve, block, N, &s->tickets[s->count]) == LAPPED_DONE)
        s->count++;
}

/* the newest ticket, any of them, or the move of one with the count of another */
static void series_make(struct series *s)
{
    size_t i = once_in(2) ? s->count - 1 : below(s->count), k = once_in(6) ? below(s->count) : i;
    struct ticket ticket = {s->tickets[i].move, s->tickets[k].count};
    int32_t before = s->valve.count;
    uint32_t answer = made(&s->valve, ticket);

    if (i == k && i < s->stale)
        expect(answer != LAPPED_DONE, "a ticket works that was asked before a make that worked");
    if (i == k && i >= s->stale)
        expect(answer == (before < MOVES ? LAPPED_DONE : LAPPED_ALL_MADE), "a fresh ticket does not work");
    if (answer == LAPPED_DONE) {
        s->worked += ticket.move;
        s->stale = s->count;
    }
    expect(fits(s->valve), "a series leaves the limits");
    expect(s->valve.position == s->worked, "the position is not that of the moves");
    expect(s->valve.count >= before, "the count falls");
}

static void series(size_t times)
{
    while (times-- > 0) {
        struct series s = {{(int32_t)below(TRAVEL + 1), (int32_t)below(MOVES + 1)}, {{0, 0}}, 0, 0, 0};

        if (once_in(2))
            s.valve.position = positions[below(IN_TRAVEL)];
        if (once_in(2))
            s.valve.count = once_in(2) ? 0 : MOVES - (int32_t)below(6);
        s.worked = s.valve.position;
        while (s.count < KEPT) {
            series_ask(&s);
            while (s.count > 0 && !once_in(3))
                series_make(&s);
        }
    }
}

void valve_calls(void)
{
    size_t N;

    for (N = 8; N <= WIDEST; N *= 4) {
        aim_asks(N);
        aim_readings(N);
    }
    aim_makes();
    asks(100000);
    makes(100000);
    series(4000);
}
