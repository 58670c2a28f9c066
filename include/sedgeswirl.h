/*
 * sedgeswirl.h: the step machine of the MCSHLi queue lock, for C and C++.
 *
 * The library steps a model of the lock: T threads, K queue nodes, and the nineteen lines 11 to 29 of the lock's figure. It is no
 * lock itself and starts no thread. A state is a row of bytes that the caller owns; a call takes those bytes, looks at them or
 * changes them where they stand, and returns a number. 0 is success, and 1 to 12 are the refusals listed below. The source of each
 * call is proved: for every input its number, each value and each byte are what the rules say. The proof does not cover the compiler
 * that made the archive, nor a caller that breaks the rules for every call below: nothing checks those.
 *
 * A saved state is 23 + 4K + 11T bytes, at most 503. Numbers of four bytes have the lowest byte first.
 *
 *     'L' 'H'  T  K  flag  tail  mess  low (4)  high (4)  entered (4)  nodes in use (4)     23 bytes, once
 *     'L' 'N'  next  locked                                                                 4 bytes, K times
 *     'L' 'T'  line  my  prev  succ  nxmy  slot (4)                                         11 bytes, T times
 *
 * T and K are 1 to 32. Flag and locked are 0 or 1. Tail, mess, next, my, prev, succ and nxmy are node numbers, 0 to K, where 0 is no
 * node. Node k is in use where bit k - 1 of the nodes in use is 1; bits from K up are 0. Low and high are 1 to 1,000,001, entered
 * and slot at most 1,000,000, lines 11 to 29. Every state in these ranges is accepted.
 *
 * A schedule is rows of four bytes, at most 65,536 bytes in all: a heading, and then any number of events, also none.
 *
 *     'S' 'H'  T  K                                                                         4 bytes, once
 *     'S' 'E'  thread  node                                                                 4 bytes for each event
 *
 * An event executes one line of one thread. Its node is the one that the thread takes where the thread is at line 11, and is 0 at
 * every other line. A line follows a node where it reads or writes its record: my at 12, 13, 19, 20, 23, 24 and 26, prev at 18, and
 * succ at 29 where it is not 0.
 *
 * Start from sedge_fresh and change the state by sedge_step and sedge_run alone, with any events; a refused event changes nothing. Then
 * never two threads are at the critical section (line 27); threads pass through it in the order in which they stored their node in
 * the tail (line 14); if some thread is off line 11, some such thread can step; and refusals 9, 10 and 11 never occur. This is proved
 * of the step that both calls make.
 *
 * Rules for every call:
 *   - A buffer is a pointer and then its length in bytes. No pointer may be NULL, not even where the length is 0.
 *   - The buffers and the numbers that one call is given must not overlap.
 *   - Where several refusals apply, the first in the order that the call's comment gives is returned.
 *   - A refused call changes no byte of a buffer. (A run that an event stops is not refused: see sedge_run.)
 *   - A number that is handed back through a pointer is written in every case. It is 0 where the call is refused.
 *   - The library keeps nothing between calls. Two threads may call at once on different buffers.
 *   - It takes no memory but the stack, as measured on x86-64 with an older kit: sedge_step 112 bytes, sedge_run 272, the others at most
 *     240, and sedge_chain 48 more for each node of the chain. It copies no state: every call works on the bytes that it was lent.
 *
 * To link, on x86-64:  cc example.c -Iinclude crates/board/out/libboard.a
 * The archive needs nothing but memcpy and memset of the C library.
 */
#ifndef SEDGESWIRL_H
#define SEDGESWIRL_H

#include <stddef.h>
#include <stdint.h>

#ifdef __cplusplus
extern "C" {
#endif

/* How many bytes the saved state of T threads and K nodes has, and the most that one can have. */
#define SEDGE_SAVED_SIZE(T, K) (23u + 4u * (size_t)(K) + 11u * (size_t)(T))
#define SEDGE_MOST_SAVED 503u

/* The most threads and nodes. */
#define SEDGE_MOST_THREADS 32u
#define SEDGE_MOST_NODES 32u

/* How many bytes a schedule of so many events has, and the most that one can have. */
#define SEDGE_SCHEDULE_SIZE(events) (4u + 4u * (size_t)(events))
#define SEDGE_MOST_SCHEDULE 65536u

/* The numbers that calls return. */
#define SEDGE_DONE 0u            /* success */
#define SEDGE_BAD_STATE 1u       /* the saved state breaks a rule above */
#define SEDGE_BAD_SCHEDULE 2u    /* the schedule breaks a rule above */
#define SEDGE_BAD_SIZE 3u        /* a fresh state is asked with T or K outside 1 to 32, or schedule and state differ in T or K */
#define SEDGE_TOO_SHORT 4u       /* a lent output is too short */
#define SEDGE_NO_SUCH_THREAD 5u  /* the event's thread is not 1 to T */
#define SEDGE_WRONG_NODE 6u      /* at line 11 the node is not 1 to K; elsewhere it is not 0; or a chain starts at a node not 1 to K */
#define SEDGE_NO_ENTRY_LEFT 7u   /* line 11 with entered = 1,000,000 */
#define SEDGE_NODE_TAKEN 8u      /* line 11 with a node in use */
#define SEDGE_FOLLOWED_EMPTY 9u  /* a followed node is 0 */
#define SEDGE_FOLLOWED_UNUSED 10u /* a followed node is not in use */
#define SEDGE_NO_PLACE_LEFT 11u  /* line 14 with high, or line 29 with low, at 1,000,001 */
#define SEDGE_MUST_WAIT 12u      /* the line waits and its condition does not hold */

/* What sedge_status tells. */
#define SEDGE_FREE 1u    /* tail is 0 and flag is 1 */
#define SEDGE_HELD 2u    /* not free, and some thread is at lines 20 to 29 */
#define SEDGE_PASSING 3u /* neither */

/*
 * Writes the fresh state of `threads` threads and `nodes` nodes to the start of `out`: every thread is at line 11, no node is in use
 * and the lock is free. It takes SEDGE_SAVED_SIZE(threads, nodes) bytes; those after it stay as they were.
 *
 * Returns 0, or
 *   3  threads or nodes is not 1 to 32
 *   4  out has fewer than SEDGE_SAVED_SIZE(threads, nodes) bytes
 * Refused, no byte of out changes.
 */
uint8_t sedge_fresh(uint8_t threads, uint8_t nodes, uint8_t *out, size_t out_length);

/*
 * Whether the bytes are a saved state. The length has to be exactly that of the state: a longer buffer is none.
 *
 * Returns 0 if they are, or
 *   1  they break a rule of a saved state
 */
uint8_t sedge_check(const uint8_t *saved, size_t saved_length);

/*
 * One event: thread `thread` executes the line it is at. `node` is the node that it takes, 1 to K, at line 11, and 0 at every other
 * line. The bytes then hold the state after the step.
 *
 * Returns 0, or
 *   1  the bytes are no saved state
 *   5  thread is not 1 to T
 *   6  at line 11 node is not 1 to K; at another line it is not 0
 *   7  line 11, and the state has had its 1,000,000 entries
 *   8  line 11, and the node is in use
 *   9  the node that the line follows is 0
 *  10  the node that the line follows is not in use
 *  11  line 14 with high, or line 29 with low, at 1,000,001
 *  12  the line waits, and what it waits for does not hold: try again after a step of another thread
 * Refused, no byte changes.
 */
uint8_t sedge_step(uint8_t *saved, size_t saved_length, uint8_t thread, uint8_t node);

/*
 * A run: the events of `schedule`, one after the other, from the state in `saved`. The answer to event i (from 0), which is what
 * sedge_step would return for it, is stored in answers[i]. After 0 and 12 the run goes on; an answer of 5 to 11 is the last, and
 * stops it. The bytes then hold the state that the run ends in. Later bytes of answers stay as they were.
 *
 * Returns 0 if nothing stopped the run, the answer of 5 to 11 that stopped it, or, before the first event,
 *   1  saved is no saved state
 *   2  the schedule breaks a rule of a schedule
 *   3  schedule and state differ in T or K
 *   4  answers has fewer bytes than the schedule has events
 * Refused by 1 to 4, no byte of saved and of answers changes. A run that an answer of 5 to 11 stops has changed both.
 *
 *   *executed  how many events were answered 0
 *   *waited    how many events were answered 12
 *   *unread    the place in schedule where its unread part begins: schedule_length if nothing stopped the run, the place after the
 *              event that stopped it, and 0 after refusals 1 to 4. What follows a stop is events without a heading: to run them, put
 *              'S' 'H' T K before them
 * After refusals 1 to 4 all three are 0.
 */
uint8_t sedge_run(uint8_t *saved, size_t saved_length, const uint8_t *schedule, size_t schedule_length, uint8_t *answers,
                  size_t answers_length, uint32_t *executed, uint32_t *waited, size_t *unread);

/*
 * Status: SEDGE_FREE, SEDGE_HELD or SEDGE_PASSING in *status.
 *
 * Returns 0, or
 *   1  the bytes are no saved state; *status is 0
 */
uint8_t sedge_status(const uint8_t *saved, size_t saved_length, uint8_t *status);

/*
 * Waiting: the number of threads at line 16 or 19, in *waiting.
 *
 * Returns 0, or
 *   1  the bytes are no saved state; *waiting is 0
 */
uint8_t sedge_waiting(const uint8_t *saved, size_t saved_length, uint8_t *waiting);

/*
 * How many nodes are in use, in *in_use.
 *
 * Returns 0, or
 *   1  the bytes are no saved state; *in_use is 0
 */
uint8_t sedge_in_use(const uint8_t *saved, size_t saved_length, uint8_t *in_use);

/*
 * Chain: node `from`, its next, and so on, found link by link, ending before 0 or after K nodes. Nodes that are not in use are
 * walked too. The node numbers are written to the start of `out`, a byte each, and how many they are to *listed. `out` needs K
 * bytes, also where the chain is shorter; the bytes after the list stay as they were.
 *
 * Returns 0, or
 *   1  the bytes are no saved state
 *   4  out has fewer than K bytes
 *   6  from is not 1 to K
 * Refused, *listed is 0 and no byte of out changes.
 */
uint8_t sedge_chain(const uint8_t *saved, size_t saved_length, uint8_t from, uint8_t *out, size_t out_length, uint8_t *listed);

#ifdef __cplusplus
}
#endif

#endif
