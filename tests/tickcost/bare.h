/* A bare governor: document 01's rules 1 to 5 as one would write them by hand for one's own firmware, to tell what a
   tick costs without the tests. The struct stands where the caller put it and is changed in place. It believes its
   tables and its fields; the only refusal is 13. */
#ifndef BARE_H
#define BARE_H

#include <stdbool.h>
#include <stddef.h>
#include <stdint.h>

#define BARE_TASKS 16
#define BARE_SPEEDS 8

struct bare_task {
    uint64_t period;   /* ticks */
    uint64_t reserve;  /* cycles per job */
    uint64_t jobs;     /* H / P */
    uint64_t deadline; /* rule 1: also the next release */
    uint64_t run;      /* the cycles its job has run */
    bool over;         /* whether its job is over */
};

struct bare_speed {
    uint64_t speed;   /* cycles per tick */
    uint64_t carries; /* the greatest load it carries: speed x H */
    uint64_t count;   /* the cycles granted at it */
};

struct bare {
    uint64_t done; /* ticks done so far */
    uint64_t load; /* rule 2 */
    uint64_t next; /* the earliest deadline of all: the next tick with a release */
    uint64_t idle;
    uint64_t late;
    uint64_t cut;
    size_t tasks;
    size_t ready;              /* jobs not over */
    uint8_t order[BARE_TASKS]; /* their places, in the order of rule 3 */
    struct bare_task task[BARE_TASKS];
    struct bare_speed speed[BARE_SPEEDS];
};

/* A fresh state from tables that document 01 admits. */
void bare_start(struct bare *b, const uint64_t *periods, const uint64_t *reserves, size_t tasks,
                const uint64_t *speeds, size_t count);

/* One tick: 0, with every place of the grants written; or 13, with nothing changed. */
int bare_tick(struct bare *b, const uint64_t *report, uint64_t *grants);

/* Moves the clock on by a multiple of H: all else stands. */
void bare_move_on(struct bare *b, uint64_t ticks);

#endif
