/* Asks the linked library whether it reads and writes each field where the header has it, whether the header's limits and
 * numbers are its own, and what stack it takes. */
#define _XOPEN_SOURCE 700
#include "piszczalin.h"

#include <stdbool.h>
#include <stdio.h>
#include <ucontext.h>

static int wrong;

/* Tells a fact that does not hold. */
static void expect(bool fact, const char *what)
{
    if (!fact) {
        wrong++;
        printf("linked: wrong: %s\n", what);
    }
}

/* A sound state that no run reaches, a value of its own in each field: two jobs that have begun, due at tick 12. */
static const piszczalin_state given = {
    .done = 8,
    .tasks = {.count = 2, .great = 12, .periods = {4, 6}, .reserves = {7, 10}},
    .jobs = {.run = {1, 2}},
    .ladder = {.count = 2, .speeds = {3, 9}, .volts = {14, 15}},
    .tally = {.counts = {11, 13}, .idle = 17, .late = 19, .cut = 23},
};

/* What now and energy tell of it: load 7 x 3 + 10 x 2 = 41, above 3 x 12. */
static void ask_told(void)
{
    const piszczalin_told told = piszczalin_now(given);
    expect(told.number == 0 && told.task == 1 && told.deadline == 12 && told.speed == 9, "what now tells");
    const piszczalin_used used = piszczalin_energy(given);
    expect(used.number == 0 && used.energy == 11 * 14 * 14 + 13 * 15 * 15, "what energy tells");
}

/* A tick that cuts the first job and finishes the second, and leaves a cycle idle. */
static void ask_cut(void)
{
    const uint64_t report[2] = {0, 4};
    uint64_t grants[2];
    piszczalin_state next = given;
    next.done = 9;
    next.jobs = (piszczalin_jobs){.run = {7, 4}, .over = {1, 1}};
    next.tally = (piszczalin_tally){.counts = {11, 21}, .idle = 18, .late = 19, .cut = 24};
    const piszczalin_ticked ticked = piszczalin_tick(given, report, 2, grants, 2);
    expect(ticked.number == 0 && memcmp(&ticked.state, &next, sizeof next) == 0, "the state after a cut");
    expect(grants[0] == 6 && grants[1] == 2, "the grants of a cut");
}

/* A tick that finishes the first job, and at whose end the second is late. */
static void ask_late(void)
{
    const uint64_t report[2] = {7, 0};
    uint64_t grants[2];
    piszczalin_state last = given;
    last.done = 11;
    piszczalin_state next = given;
    next.done = 12;
    next.jobs = (piszczalin_jobs){.run = {0}};
    next.tally = (piszczalin_tally){.counts = {11, 22}, .idle = 17, .late = 20, .cut = 23};
    const piszczalin_ticked ticked = piszczalin_tick(last, report, 2, grants, 2);
    expect(ticked.number == 0 && memcmp(&ticked.state, &next, sizeof next) == 0, "the state after a late job");
    expect(grants[0] == 6 && grants[1] == 3, "the grants of a late job");
}

/* The fresh state of a table with all places used. */
static piszczalin_started full(void)
{
    const uint64_t periods[16] = {1, 2, 3, 4, 5, 6, 7, 8, 9, 10, 12, 14, 15, 16, 18, 20};
    const uint64_t reserves[16] = {21, 22, 23, 24, 25, 26, 27, 28, 29, 30, 31, 32, 33, 34, 35, 36};
    const uint64_t speeds[8] = {41, 42, 43, 44, 45, 46, 47, 480};
    const uint64_t volts[8] = {51, 52, 53, 54, 55, 56, 57, 58};
    return piszczalin_start(periods, 16, reserves, 16, speeds, 8, volts, 8);
}

/* A fresh state, field by field. */
static void ask_start(void)
{
    const piszczalin_state fresh = {
        .tasks = {.count = 16,
                  .great = 5040,
                  .periods = {1, 2, 3, 4, 5, 6, 7, 8, 9, 10, 12, 14, 15, 16, 18, 20},
                  .reserves = {21, 22, 23, 24, 25, 26, 27, 28, 29, 30, 31, 32, 33, 34, 35, 36}},
        .ladder = {.count = 8,
                   .speeds = {41, 42, 43, 44, 45, 46, 47, 480},
                   .volts = {51, 52, 53, 54, 55, 56, 57, 58}},
    };
    const piszczalin_started started = full();
    expect(started.number == 0 && memcmp(&started.state, &fresh, sizeof fresh) == 0, "a fresh state");
}

/* What all three calls refuse with 9: tick gives the same bytes back and writes no grant. */
static void expect_unsound(const piszczalin_state *state, const char *what)
{
    static const uint64_t report[PISZCZALIN_TASKS];
    uint64_t grants[PISZCZALIN_TASKS];
    memset(grants, 0x5a, sizeof grants);
    const piszczalin_told told = piszczalin_now(*state);
    const piszczalin_used used = piszczalin_energy(*state);
    const piszczalin_ticked ticked = piszczalin_tick(*state, report, PISZCZALIN_TASKS, grants, PISZCZALIN_TASKS);
    expect(told.number == PISZCZALIN_UNSOUND && told.task == 0 && told.deadline == 0 && told.speed == 0, what);
    expect(used.number == PISZCZALIN_UNSOUND && used.energy == 0, what);
    expect(ticked.number == PISZCZALIN_UNSOUND && memcmp(&ticked.state, state, sizeof *state) == 0, what);
    for (size_t place = 0; place < PISZCZALIN_TASKS; place++)
        expect(grants[place] == 0x5a5a5a5a5a5a5a5a, what);
}

/* A byte that is no mark is refused in every place, used or not. */
static void ask_marks(void)
{
    static const uint8_t bytes[] = {2, 3, 127, 128, 254, 255};
    for (size_t place = 0; place < PISZCZALIN_TASKS; place++)
        for (size_t i = 0; i < sizeof bytes; i++) {
            piszczalin_state used = full().state, unused = given;
            used.jobs.over[place] = bytes[i];
            unused.jobs.over[place] = bytes[i];
            expect_unsound(&used, "a byte that is no mark, all places used");
            expect_unsound(&unused, "a byte that is no mark, two places used");
        }
}

/* Each number of a fresh state set to 2^64 - 1, and each mark set, is seen. */
static void ask_every_place(void)
{
    const size_t marks = offsetof(piszczalin_state, jobs) + offsetof(piszczalin_jobs, over);
    const piszczalin_state fresh = full().state;
    unsigned char bytes[sizeof fresh];
    for (size_t place = 0; place < sizeof fresh;) {
        const bool mark = place >= marks && place < marks + PISZCZALIN_TASKS;
        const size_t size = mark ? 1 : 8;
        piszczalin_state_to_bytes(bytes, &fresh);
        memset(bytes + place, mark ? 1 : 0xff, size);
        piszczalin_state state;
        piszczalin_state_from_bytes(&state, bytes);
        expect_unsound(&state, "a place that the library does not look at");
        place += size;
    }
}

/* NULL is as good as any pointer where the length is 0. */
static void ask_no_lists(void)
{
    const uint64_t one[1] = {1};
    expect(piszczalin_start(NULL, 0, NULL, 0, NULL, 0, NULL, 0).number == PISZCZALIN_BAD_TASKS, "no lists");
    expect(piszczalin_start(one, 1, NULL, 0, one, 1, one, 1).number == PISZCZALIN_BAD_TASKS, "no reserves");
    expect(piszczalin_start(one, 1, one, 1, NULL, 0, NULL, 0).number == PISZCZALIN_BAD_SPEEDS, "no speeds");
    expect(piszczalin_start(one, 1, one, 1, one, 1, NULL, 0).number == PISZCZALIN_BAD_SPEEDS, "no volts");
    const piszczalin_ticked ticked = piszczalin_tick(given, NULL, 0, NULL, 0);
    expect(ticked.number == PISZCZALIN_BAD_LENGTH, "no report and no grants");
    expect(memcmp(&ticked.state, &given, sizeof given) == 0, "a refused tick gives the state it got");
}

/* The number that start gives a table of one task and one speed. */
static uint64_t started(uint64_t period, uint64_t reserve, uint64_t speed, uint64_t volts)
{
    return piszczalin_start(&period, 1, &reserve, 1, &speed, 1, &volts, 1).number;
}

/* The limits and the numbers of start, by their names. */
static void ask_limits(void)
{
    const uint64_t two[2] = {1, 1}, far[2] = {1000, 1001};
    expect(started(PISZCZALIN_PERIOD, 1, 1, 1) == PISZCZALIN_ACCEPTED, "the longest period");
    expect(started(PISZCZALIN_PERIOD + 1, 1, 1, 1) == PISZCZALIN_BAD_PERIOD, "a longer period");
    expect(started(1000, PISZCZALIN_RESERVE, PISZCZALIN_SPEED, PISZCZALIN_VOLTS) == PISZCZALIN_ACCEPTED, "the largest table");
    expect(started(1000, PISZCZALIN_RESERVE + 1, PISZCZALIN_SPEED, 1) == PISZCZALIN_BAD_RESERVE, "a larger reserve");
    expect(started(1, 1, PISZCZALIN_SPEED + 1, 1) == PISZCZALIN_BAD_SPEED, "a higher speed");
    expect(started(1, 1, 1, PISZCZALIN_VOLTS + 1) == PISZCZALIN_BAD_VOLTS, "more volts");
    expect(started(1, 2, 1, 1) == PISZCZALIN_NOT_ADMITTED, "a load past the line");
    expect(piszczalin_start(far, 2, two, 2, two, 1, two, 1).number == PISZCZALIN_GREAT_PERIOD, "a greater period");
    expect(started(PISZCZALIN_GREAT, 1, 1, 1) == PISZCZALIN_ACCEPTED, "the greatest period");
    expect(piszczalin_start(NULL, 0, NULL, 0, two, 1, two, 1).number == PISZCZALIN_BAD_TASKS, "no tasks");
    expect(piszczalin_start(two, 1, two, 1, NULL, 0, NULL, 0).number == PISZCZALIN_BAD_SPEEDS, "no speeds");
}

/* The numbers of the other calls, by their names. */
static void ask_numbers(void)
{
    const uint64_t early[2] = {1, 0};
    uint64_t grants[2];
    piszczalin_state state = given;
    state.done = PISZCZALIN_RUN - 1;
    expect(piszczalin_now(state).number == PISZCZALIN_ACCEPTED, "the last tick");
    state.done = PISZCZALIN_RUN;
    expect(piszczalin_now(state).number == PISZCZALIN_RUN_DONE, "a run that is done");
    state.done = (uint64_t)PISZCZALIN_RUN + 1;
    expect(piszczalin_now(state).number == PISZCZALIN_UNSOUND, "a run past its end");
    expect(piszczalin_tick(given, early, 2, grants, 2).number == PISZCZALIN_BAD_ENTRY, "an entry that was run before");
}

static unsigned char stack[65536];
static ucontext_t here, there;
static piszczalin_state full_state;

/* The bytes that a function takes of a stack of its own. (valgrind takes this reading of a left stack for an error.) */
static size_t depth(void (*call)(void))
{
    memset(stack, 0xa5, sizeof stack);
    getcontext(&there);
    there.uc_stack.ss_sp = stack;
    there.uc_stack.ss_size = sizeof stack;
    there.uc_link = &here;
    makecontext(&there, call, 0);
    swapcontext(&here, &there);
    size_t untouched = 0;
    while (untouched < sizeof stack && stack[untouched] == 0xa5)
        untouched++;
    return sizeof stack - untouched;
}

static void call_start(void) { full_state = full().state; }

static void call_now(void) { piszczalin_now(full_state); }

static void call_tick(void)
{
    static const uint64_t report[16];
    static uint64_t grants[16];
    piszczalin_tick(full_state, report, 16, grants, 16);
}

static void call_energy(void) { piszczalin_energy(full_state); }

/* The stack that each call takes, with its arguments and its answer. */
static void ask_stack(void)
{
    const size_t start = depth(call_start), now = depth(call_now), tick = depth(call_tick), energy = depth(call_energy);
    printf("linked: bytes of stack: start %zu, now %zu, tick %zu, energy %zu\n", start, now, tick, energy);
    expect(start < PISZCZALIN_STACK && now < PISZCZALIN_STACK && tick < PISZCZALIN_STACK && energy < PISZCZALIN_STACK,
           "less stack than the header says");
}

int main(void)
{
    ask_told();
    ask_cut();
    ask_late();
    ask_start();
    ask_every_place();
    ask_marks();
    ask_no_lists();
    ask_limits();
    ask_numbers();
    ask_stack();
    printf("linked: %d wrong\n", wrong);
    return wrong != 0;
}
