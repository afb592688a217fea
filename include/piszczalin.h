/* The speed governor of a cordless density head: four calls, proved to be the rules of docs/RULES.md for every input.
 *
 *   start   makes a state from lists of periods, reserves, speeds and volts
 *   now     tells the task to run first and the speed, which stands for the whole of the next tick
 *   tick    settles a report, gives the next state and writes each task's cycles to the grants list
 *   energy  tells what a state has used
 *
 * Of all four:
 * - They answer for every input: any numbers, lists of any length, any 648 bytes as a state, also one that nobody here
 *   made. Each answer has a number: 0 accepted, or the smallest refusal that applies.
 * - They keep nothing and allocate nothing, and they write nothing but the grants list: the same input gives the same
 *   answer. They may be called from any thread, from several at once, and in a signal handler.
 * - They end, always, and never trap.
 * - A call takes less than PISZCZALIN_STACK bytes of stack, its arguments and its answer included: measured, not
 *   proved. What the loader takes to find memcpy at the first call is not in it: link with -static or -Wl,-z,now.
 * - A list is a pointer and a length in entries. The pointer is aligned for uint64_t, and so many entries can be read
 *   there (written, for grants). It may be NULL only where the length is 0.
 * - The grants list overlaps no other list of the call.
 * - The lists stay as they are during a call. Where another thread changes one meanwhile nothing is promised: start
 *   reads its lists more than once.
 *
 * The library is for x86-64 Linux. It needs memcpy and nothing else.
 *
 * A tick is the clock's step; work is in cycles; a speed is cycles per tick; volts are whole tenths of a volt. A count
 * of ticks is never added to or compared with a count of cycles; one becomes the other only through a speed.
 */
#ifndef PISZCZALIN_H
#define PISZCZALIN_H

#include <stddef.h>
#include <stdint.h>
#include <string.h>

#ifdef __cplusplus
extern "C" {
#endif

/* The limits. */
#define PISZCZALIN_TASKS 16            /* tasks: 1 to 16 */
#define PISZCZALIN_SPEEDS 8            /* speeds: 1 to 8, strictly rising */
#define PISZCZALIN_PERIOD 1000000      /* period, ticks: 1 to 1,000,000 */
#define PISZCZALIN_RESERVE 1000000000  /* reserve, cycles per job: 1 to 1,000,000,000 */
#define PISZCZALIN_SPEED 1000000       /* a speed, cycles per tick: 1 to 1,000,000 */
#define PISZCZALIN_VOLTS 100           /* volts, one per speed, tenths: 1 to 100, never falling */
#define PISZCZALIN_GREAT 1000000       /* great period, the least common multiple of the periods: at most 1,000,000 */
#define PISZCZALIN_RUN 1000000000      /* ticks in one run: at most 1,000,000,000 */

#define PISZCZALIN_STACK 4096          /* a call takes fewer bytes of stack than this */

/* The numbers a caller may see. The smallest that applies is given. */
enum piszczalin_number {
    PISZCZALIN_ACCEPTED = 0,       /* all: accepted */
    PISZCZALIN_BAD_TASKS = 1,      /* start: 0 or more than 16 periods, or not as many reserves */
    PISZCZALIN_BAD_SPEEDS = 2,     /* start: 0 or more than 8 speeds, or not as many volts */
    PISZCZALIN_BAD_PERIOD = 3,     /* start: a period outside its range */
    PISZCZALIN_BAD_RESERVE = 4,    /* start: a reserve outside its range */
    PISZCZALIN_BAD_SPEED = 5,      /* start: a speed outside its range or not above the one before */
    PISZCZALIN_BAD_VOLTS = 6,      /* start: a volt value outside its range or below the one before */
    PISZCZALIN_GREAT_PERIOD = 7,   /* start: the great period above 1,000,000 */
    PISZCZALIN_NOT_ADMITTED = 8,   /* start: not admitted by rule 7: sum of reserve x (H / P) above top speed x H */
    PISZCZALIN_UNSOUND = 9,        /* now, tick, energy: the state is unsound */
    PISZCZALIN_RUN_DONE = 10,      /* now, tick: 1,000,000,000 ticks are done */
    PISZCZALIN_BAD_LENGTH = 11,    /* tick: the report or the grants list is not as long as the task count */
    PISZCZALIN_NO_SPEED = 12,      /* now, tick: no listed speed carries the load (no sound state gives it) */
    PISZCZALIN_BAD_ENTRY = 13      /* tick: an entry breaks rule 4 */
};

/* The task side of a table. Places past the task count hold zero. */
typedef struct piszczalin_tasks {
    size_t count;                          /* how many tasks */
    uint64_t great;                        /* ticks: the great period H */
    uint64_t periods[PISZCZALIN_TASKS];    /* ticks: each task's period */
    uint64_t reserves[PISZCZALIN_TASKS];   /* cycles: each task's reserve, per job */
} piszczalin_tasks;

/* Each task's current job. Places past the task count hold zero. */
typedef struct piszczalin_jobs {
    uint64_t run[PISZCZALIN_TASKS];        /* cycles: what the job ran so far */
    uint8_t over[PISZCZALIN_TASKS];        /* mark: 1 where the job is over, by a finish or a cut, and 0 where not */
} piszczalin_jobs;

/* The speed side of a table. Places past the speed count hold zero. */
typedef struct piszczalin_ladder {
    size_t count;                          /* how many speeds */
    uint64_t speeds[PISZCZALIN_SPEEDS];    /* cycles per tick: the speeds, strictly rising */
    uint64_t volts[PISZCZALIN_SPEEDS];     /* tenths of a volt: each speed's volts, never falling */
} piszczalin_ladder;

/* What has been counted. */
typedef struct piszczalin_tally {
    uint64_t counts[PISZCZALIN_SPEEDS];    /* cycles: granted at each speed */
    uint64_t idle;                         /* cycles: what remained of the ticks */
    uint64_t late;                         /* jobs not over at their next release, dropped; 0 in a run from start */
    uint64_t cut;                          /* jobs that used up their reserve without a finish */
} piszczalin_tally;

/* The whole state: 648 bytes, plain numbers and marks, no padding and no pointer. It can be copied, compared and kept
 * as bytes. A state is sound when its marks are 0 or 1, its tables pass 1 to 8, H is right, unused places are zero, t
 * is at most 1,000,000,000, a job not over has run below its reserve, a job that is over has run from 1 to its reserve,
 * counts and idle together are at most t x top speed, and late and cut are each at most 16 x t. The all-zero state is
 * not. */
typedef struct piszczalin_state {
    uint64_t done;                         /* ticks: t, those done so far */
    piszczalin_tasks tasks;
    piszczalin_jobs jobs;
    piszczalin_ladder ladder;
    piszczalin_tally tally;
} piszczalin_state;

/* What start answers: 0 and the fresh state, or 1 to 8 and the all-zero state. */
typedef struct piszczalin_started {
    uint64_t number;
    piszczalin_state state;
} piszczalin_started;

/* What now answers: 0, the task to run and the speed; or 9, 10 or 12, and zeros. */
typedef struct piszczalin_told {
    uint64_t number;
    uint64_t task;                         /* the ready task due first, lower number at a tie, from 1; 0: none is */
    uint64_t deadline;                     /* ticks: its job's deadline, from the run's start; 0: nothing is ready */
    uint64_t speed;                        /* cycles per tick: the lowest listed speed that carries the load */
} piszczalin_told;

/* What tick answers: 0 and the next state, or 9 to 13 and the state that was given, byte for byte. */
typedef struct piszczalin_ticked {
    uint64_t number;
    piszczalin_state state;
} piszczalin_ticked;

/* What energy answers: 0 and the energy, or 9 and 0. */
typedef struct piszczalin_used {
    uint64_t number;
    uint64_t energy;                       /* sum over speeds of count x volts x volts: cycles x tenths squared */
} piszczalin_used;

/* Makes the fresh state of a table, all tasks released at tick 0. Refuses with 1 to 8. */
piszczalin_started piszczalin_start(
    const uint64_t *periods, size_t period_count,      /* ticks, one per task */
    const uint64_t *reserves, size_t reserve_count,    /* cycles per job, one per task */
    const uint64_t *speeds, size_t speed_count,        /* cycles per tick */
    const uint64_t *volts, size_t volt_count);         /* tenths of a volt, one per speed */

/* Tells the task to run and the speed, which stands for the whole tick. Refuses with 9, 10 or 12. */
piszczalin_told piszczalin_now(piszczalin_state state);

/* Settles one tick. The report has one entry per task: 0 for no finish in this tick, or u, the total cycles at which
 * the job finished, those of earlier ticks included. Jobs get their cycles in the order of their deadlines, lower
 * number at a tie, until the tick's speed is used up. An entry u needs: the job is not over and is reached, it has
 * run fewer cycles than u, u is at most its reserve, and the tick has the missing cycles left. A job that uses up its
 * reserve with entry 0 is over and counted as cut.
 * An accepted tick writes every place of the grants list: the cycles of each task in this tick, 0 for a job that is
 * over or not reached. Refuses with 9 to 13; then the state is the one given and the grants list is as it was. */
piszczalin_ticked piszczalin_tick(
    piszczalin_state state,
    const uint64_t *report, size_t report_count,       /* cycles, one entry per task */
    uint64_t *grants, size_t grant_count);             /* cycles, one place per task */

/* Tells what a state has used. Refuses with 9. */
piszczalin_used piszczalin_energy(piszczalin_state state);

/* The layout that the library was compiled with. */
#ifdef __cplusplus
#define PISZCZALIN_ASSERT(fact) static_assert(fact, #fact)
#else
#define PISZCZALIN_ASSERT(fact) _Static_assert(fact, #fact)
#endif
PISZCZALIN_ASSERT(sizeof(size_t) == 8);
PISZCZALIN_ASSERT(sizeof(piszczalin_tasks) == 272);
PISZCZALIN_ASSERT(offsetof(piszczalin_tasks, great) == 8);
PISZCZALIN_ASSERT(offsetof(piszczalin_tasks, periods) == 16);
PISZCZALIN_ASSERT(offsetof(piszczalin_tasks, reserves) == 144);
PISZCZALIN_ASSERT(sizeof(piszczalin_jobs) == 144);
PISZCZALIN_ASSERT(offsetof(piszczalin_jobs, over) == 128);
PISZCZALIN_ASSERT(sizeof(piszczalin_ladder) == 136);
PISZCZALIN_ASSERT(offsetof(piszczalin_ladder, speeds) == 8);
PISZCZALIN_ASSERT(offsetof(piszczalin_ladder, volts) == 72);
PISZCZALIN_ASSERT(sizeof(piszczalin_tally) == 88);
PISZCZALIN_ASSERT(offsetof(piszczalin_tally, idle) == 64);
PISZCZALIN_ASSERT(offsetof(piszczalin_tally, late) == 72);
PISZCZALIN_ASSERT(offsetof(piszczalin_tally, cut) == 80);
PISZCZALIN_ASSERT(sizeof(piszczalin_state) == 648);
PISZCZALIN_ASSERT(offsetof(piszczalin_state, tasks) == 8);
PISZCZALIN_ASSERT(offsetof(piszczalin_state, jobs) == 280);
PISZCZALIN_ASSERT(offsetof(piszczalin_state, ladder) == 424);
PISZCZALIN_ASSERT(offsetof(piszczalin_state, tally) == 560);
PISZCZALIN_ASSERT(sizeof(piszczalin_started) == 656 && offsetof(piszczalin_started, state) == 8);
PISZCZALIN_ASSERT(sizeof(piszczalin_ticked) == 656 && offsetof(piszczalin_ticked, state) == 8);
PISZCZALIN_ASSERT(sizeof(piszczalin_told) == 32);
PISZCZALIN_ASSERT(offsetof(piszczalin_told, task) == 8);
PISZCZALIN_ASSERT(offsetof(piszczalin_told, deadline) == 16);
PISZCZALIN_ASSERT(offsetof(piszczalin_told, speed) == 24);
PISZCZALIN_ASSERT(sizeof(piszczalin_used) == 16 && offsetof(piszczalin_used, energy) == 8);
#undef PISZCZALIN_ASSERT

/* Takes a state from 648 bytes of any origin: any are one. The calls answer 9 for a state that is unsound. */
static inline void piszczalin_state_from_bytes(piszczalin_state *state, const void *bytes)
{
    memcpy(state, bytes, sizeof *state);
}

/* Writes a state as 648 bytes: its fields in their order, numbers of 8 bytes with the lowest first, marks of 1. */
static inline void piszczalin_state_to_bytes(void *bytes, const piszczalin_state *state)
{
    memcpy(bytes, state, sizeof *state);
}

#ifdef __cplusplus
}
#endif

#endif
