/* Prints the structs of the C header as the compiler lays them out. */
#include "piszczalin.h"

#include <stdalign.h>
#include <stdio.h>

/* The type of a field, or of an array's elements. */
#define KIND(value)                                                                                                  \
    _Generic((value), uint64_t: "number", uint8_t: "u8", piszczalin_tasks: "tasks", piszczalin_jobs: "jobs",          \
             piszczalin_ladder: "ladder", piszczalin_tally: "tally", piszczalin_state: "state")

#define OF(name) ((piszczalin_##name *)0)
#define STRUCT(name) printf("struct %s size %zu align %zu\n", #name, sizeof *OF(name), alignof(piszczalin_##name))
#define PLACE(name, field)                                                                                           \
    printf("field %s.%s offset %zu size %zu type ", #name, #field, offsetof(piszczalin_##name, field),               \
           sizeof OF(name)->field)
#define FIELD(name, field) (PLACE(name, field), puts(KIND(OF(name)->field)))
#define ARRAY(name, field)                                                                                           \
    (PLACE(name, field),                                                                                             \
     printf("[%s; %zu]\n", KIND(*OF(name)->field), sizeof OF(name)->field / sizeof *OF(name)->field))

/* The parts of the state. */
static void print_parts(void)
{
    STRUCT(tasks);
    FIELD(tasks, count);
    FIELD(tasks, great);
    ARRAY(tasks, periods);
    ARRAY(tasks, reserves);
    STRUCT(jobs);
    ARRAY(jobs, run);
    ARRAY(jobs, over);
    STRUCT(ladder);
    FIELD(ladder, count);
    ARRAY(ladder, speeds);
    ARRAY(ladder, volts);
    STRUCT(tally);
    ARRAY(tally, counts);
    FIELD(tally, idle);
    FIELD(tally, late);
    FIELD(tally, cut);
}

/* The state and the answers. */
static void print_wholes(void)
{
    STRUCT(state);
    FIELD(state, done);
    FIELD(state, tasks);
    FIELD(state, jobs);
    FIELD(state, ladder);
    FIELD(state, tally);
    STRUCT(started);
    FIELD(started, number);
    FIELD(started, state);
    STRUCT(told);
    FIELD(told, number);
    FIELD(told, task);
    FIELD(told, deadline);
    FIELD(told, speed);
    STRUCT(ticked);
    FIELD(ticked, number);
    FIELD(ticked, state);
    STRUCT(used);
    FIELD(used, number);
    FIELD(used, energy);
}

int main(void)
{
    print_parts();
    print_wholes();
    return 0;
}
