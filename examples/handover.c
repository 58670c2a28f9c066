/*
 * A handover of the lock, step by step: thread 1 takes it, thread 2 queues behind it and waits, and thread 1 hands it over. Then the
 * same is done by one run of a schedule. What it prints is in handover.txt. At the root of the repository:
 *
 *     (cd crates/board && rt lib)
 *     cc -std=c99 -Wall -Wextra -Werror -pedantic examples/handover.c -Iinclude crates/board/out/libboard.a -o handover
 *
 * It ends with exit status 1 where something is not as it should be.
 */
#include <stdio.h>
#include <stdlib.h>
#include <string.h>

#include "sedgeswirl.h"

enum { THREADS = 2, NODES = 2, SIZE = 23 + 4 * NODES + 11 * THREADS, MOST_EVENTS = 64 };

static uint8_t saved[SIZE];
static uint8_t schedule[4 + 4 * MOST_EVENTS];
static size_t events;

static void expect(const char *what, size_t is, size_t should_be)
{
    if (is != should_be) {
        printf("%s is %u and should be %u\n", what, (unsigned)is, (unsigned)should_be);
        exit(1);
    }
}

/* A record of a schedule: its mark, and two bytes. */
static void put_record(uint8_t *at, char mark, uint8_t first, uint8_t second)
{
    at[0] = 'S';
    at[1] = (uint8_t)mark;
    at[2] = first;
    at[3] = second;
}

/* One event, whose answer is known beforehand. It is also put on the schedule, for the run at the end. */
static void step(uint8_t thread, uint8_t node, uint8_t answer)
{
    put_record(schedule + SEDGE_SCHEDULE_SIZE(events), 'E', thread, node);
    events++;
    expect("the answer", sedge_step(saved, SIZE, thread, node), answer);
}

/* So many events of a thread that is past line 11: each names node 0 and is answered 0. */
static void steps(uint8_t thread, int count)
{
    while (count-- > 0) {
        step(thread, 0, SEDGE_DONE);
    }
}

static void tell(const char *what, uint8_t status, uint8_t waiting)
{
    static const char *const words[] = {"", "free", "held", "passing"};
    uint8_t is_status, is_waiting;

    expect("the number of the status", sedge_status(saved, SIZE, &is_status), SEDGE_DONE);
    expect("the number of the waiting", sedge_waiting(saved, SIZE, &is_waiting), SEDGE_DONE);
    expect("the status", is_status, status);
    expect("the waiting", is_waiting, waiting);
    printf("%s: %s, %u waiting\n", what, words[is_status], is_waiting);
}

int main(void)
{
    uint8_t first[SIZE], again[SIZE], answers[MOST_EVENTS], chain[NODES], length, in_use;
    uint32_t executed, waited;
    size_t unread;

    expect("the size", SIZE, SEDGE_SAVED_SIZE(THREADS, NODES));
    expect("a fresh state", sedge_fresh(THREADS, NODES, saved, SIZE), SEDGE_DONE);
    expect("its check", sedge_check(saved, SIZE), SEDGE_DONE);
    memcpy(first, saved, SIZE);
    tell("fresh", SEDGE_FREE, 0);

    step(1, 1, SEDGE_DONE); /* line 11 takes node 1 */
    steps(1, 3);            /* 12 to 14 */
    step(2, 2, SEDGE_DONE); /* line 11 takes node 2 */
    steps(2, 3);            /* 12 to 14 */
    tell("both are in the queue, thread 1 first", SEDGE_PASSING, 0);
    steps(2, 2); /* 15 and 18 */
    tell("thread 2 is linked behind thread 1", SEDGE_PASSING, 1);
    step(2, 0, SEDGE_MUST_WAIT); /* 19 */
    tell("thread 2 has to wait (answer 12)", SEDGE_PASSING, 1);

    expect("the chain", sedge_chain(saved, SIZE, 1, chain, NODES, &length), SEDGE_DONE);
    expect("its length", length, 2);
    expect("its first node", chain[0], 1);
    expect("its second node", chain[1], 2);
    expect("the nodes in use", sedge_in_use(saved, SIZE, &in_use), SEDGE_DONE);
    printf("the chain from node 1: %u %u, and %u nodes in use\n", chain[0], chain[1], in_use);

    steps(1, 3); /* 15 to 17 */
    tell("thread 1 has the lock", SEDGE_HELD, 1);
    steps(1, 5); /* 20, 21, 25 to 27 */
    tell("thread 1 has left the critical section", SEDGE_HELD, 1);
    steps(1, 2); /* 28 and 29 */
    expect("the flag", saved[4], 0);
    expect("low", saved[7], 2);
    expect("locked of node 2", saved[23 + 4 + 3], 0);
    tell("thread 1 has handed the lock over", SEDGE_PASSING, 1);
    step(2, 0, SEDGE_DONE); /* 19 again */
    tell("thread 2 has the lock (answer 0)", SEDGE_HELD, 0);

    /* The same events from the fresh state, as one run; an event of thread 3, which does not exist, stops it; one is left. */
    memcpy(again, first, SIZE);
    put_record(schedule, 'H', THREADS, NODES);
    put_record(schedule + SEDGE_SCHEDULE_SIZE(events), 'E', 3, 0);
    put_record(schedule + SEDGE_SCHEDULE_SIZE(events + 1), 'E', 2, 0);
    expect("the run",
           sedge_run(again, SIZE, schedule, SEDGE_SCHEDULE_SIZE(events + 2), answers, sizeof answers, &executed, &waited, &unread),
           SEDGE_NO_SUCH_THREAD);
    expect("the events executed", executed, events - 1);
    expect("the events that waited", waited, 1);
    expect("the unread part", unread, SEDGE_SCHEDULE_SIZE(events + 1));
    expect("the last answer", answers[events], SEDGE_NO_SUCH_THREAD);
    expect("the difference of the end states", memcmp(again, saved, SIZE) != 0, 0);
    printf("as one run: %u executed, %u waited, stopped by 5, 1 event unread, the same state\n", (unsigned)executed, (unsigned)waited);
    return 0;
}
