/* The example of Pillai and Shin's Tables 2 and 3, played with the linked governor and printed as the bench prints it. */
#include "piszczalin.h"

#include <inttypes.h>
#include <stdio.h>

enum { TASKS = 3, SPEEDS = 3, TICKS = 16 };

static const uint64_t periods[TASKS] = {8, 10, 14};      /* ticks */
static const uint64_t reserves[TASKS] = {300, 300, 100}; /* cycles per job */
static const uint64_t speeds[SPEEDS] = {50, 75, 100};    /* cycles per tick */
static const uint64_t volts[SPEEDS] = {30, 40, 50};      /* tenths of a volt */

/* What a head would report of each tick: for each task 0, or the total cycles at which its job finished. */
static const uint64_t reports[TICKS][TASKS] = {
    [2] = {200, 0, 0}, [3] = {0, 100, 0},  [5] = {0, 0, 100},
    [9] = {100, 0, 0}, [11] = {0, 100, 0}, [15] = {0, 0, 100},
};

/* Prints a refusal, as the last line. */
static int refused(uint64_t number)
{
    printf("refused,%" PRIu64 "\r\n", number);
    return 1;
}

/* Prints the line of a tick: tick, speed, grants, idle. */
static void print_tick(size_t tick, uint64_t speed, const uint64_t grants[TASKS], uint64_t idle)
{
    printf("%zu,%" PRIu64, tick, speed);
    for (size_t i = 0; i < TASKS; i++)
        printf(",%" PRIu64, grants[i]);
    printf(",%" PRIu64 "\r\n", idle);
}

/* Prints the last line: total, cycles granted, idle, energy, late, cut. */
static int print_total(piszczalin_state state)
{
    const piszczalin_used used = piszczalin_energy(state);
    if (used.number != PISZCZALIN_ACCEPTED)
        return refused(used.number);
    uint64_t granted = 0;
    for (size_t k = 0; k < SPEEDS; k++)
        granted += state.tally.counts[k];
    printf("total,%" PRIu64 ",%" PRIu64 ",%" PRIu64 ",%" PRIu64 ",%" PRIu64 "\r\n",
           granted, state.tally.idle, used.energy, state.tally.late, state.tally.cut);
    return 0;
}

int main(void)
{
    const piszczalin_started started =
        piszczalin_start(periods, TASKS, reserves, TASKS, speeds, SPEEDS, volts, SPEEDS);
    if (started.number != PISZCZALIN_ACCEPTED)
        return refused(started.number);
    piszczalin_state state = started.state;

    for (size_t tick = 0; tick < TICKS; tick++) {
        const piszczalin_told told = piszczalin_now(state);
        if (told.number != PISZCZALIN_ACCEPTED)
            return refused(told.number);
        /* a head sets its clock to told.speed here, and runs told.task */
        uint64_t grants[TASKS];
        const piszczalin_ticked ticked = piszczalin_tick(state, reports[tick], TASKS, grants, TASKS);
        if (ticked.number != PISZCZALIN_ACCEPTED)
            return refused(ticked.number);
        print_tick(tick, told.speed, grants, ticked.state.tally.idle - state.tally.idle);
        state = ticked.state;
    }
    return print_total(state);
}
