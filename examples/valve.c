/*
 * A block asks for a move of the valve, and the move is made. Its ticket does not work again, and a block with a dead
 * reading gets none.
 *
 *     cc -I include examples/valve.c target/staticlib/liblapped.a -o valve
 */
#include "lapped.h"

#include <stdio.h>

enum { WIDTH = 8 };

/* the record and the ticket, as the two functions take them */
struct valve {
    int32_t position, count;
};

struct ticket {
    int32_t move, count;
};

static void refused(const char *call, uint32_t answer, size_t place)
{
    printf("%s: refused, %lu at %lu\n", call, (unsigned long)answer, (unsigned long)place);
}

/* 1 where there is a ticket. Where there is none, the ticket's numbers mean nothing. */
static int ask(const struct valve *valve, const int32_t *block, struct ticket *ticket)
{
    size_t place;
    uint32_t answer = lapped_valve_ask(WIDTH, valve->position, valve->count, block, WIDTH, &ticket->move,
                                       &ticket->count, &place);

    if (answer != LAPPED_DONE) {
        refused("ask", answer, place);
        return 0;
    }
    printf("ask: move %ld, count %ld\n", (long)ticket->move, (long)ticket->count);
    return 1;
}

/* A refused make leaves the record as it was. */
static void make(struct valve *valve, const struct ticket *ticket)
{
    size_t place;
    uint32_t answer = lapped_valve_make(&valve->position, &valve->count, ticket->move, ticket->count, &place);

    if (answer != LAPPED_DONE)
        refused("make", answer, place);
    printf("valve: position %ld, count %ld\n", (long)valve->position, (long)valve->count);
}

int main(void)
{
    const int32_t block[WIDTH] = {100, 0, 0, 0, 0, 0, 0, 0};
    const int32_t dead[WIDTH] = {100, 0, LAPPED_DEAD_READING, 0, 0, 0, 0, 0};
    struct valve valve = {5000, 0};
    struct ticket ticket, none;

    if (!ask(&valve, block, &ticket))
        return 1;
    make(&valve, &ticket);
    make(&valve, &ticket);
    return ask(&valve, dead, &none);
}
