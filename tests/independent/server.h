/* A simulated server: draws a set of tasks and records a run of it, a permitted one or one with a fault of the server's. */
#ifndef OCTALMURE_SERVER_H
#define OCTALMURE_SERVER_H

#include <stddef.h>
#include <stdint.h>

#include "chance.h"
#include "entries.h"

enum { SPARE_RECORDS = 8 };

/* A run has room for a few records more than are allowed, so that too many can be written. */
typedef struct {
    uint32_t cores, horizon, task_count, record_count;
    Task tasks[MOST_TASKS];
    Record records[MOST_JOBS + SPARE_RECORDS];
} Run;

typedef enum {
    NO_FAULT,
    WRONG_JOB,     /* takes a ready job that is not due soonest */
    BLIND_TO_NEW,  /* counts a job that gets ready at t, by its release or by the end of the one before, as not ready at t */
    LAZY,          /* starts nothing for a while though it could */
    SLOW_CORE,     /* a core rests after a record */
    WAITS_BEHIND,  /* starts nothing while a released job that is due sooner waits for the one before it */
    BESIDE_ITSELF, /* starts a released job though the one before it has not ended */
    FAULTS
} Fault;

typedef enum { TINY, SMALL, MIDDLE, WIDE, LONG, GREATEST, SHAPES } Shape;

uint64_t nominal_release(const Run *run, uint32_t task, uint64_t job);
uint64_t deadline(const Run *run, const Record *record);
/* How many jobs exist before the horizon. */
uint64_t jobs_before(const Run *run, uint32_t horizon);
/* The greatest horizon before which no more than so many jobs exist. */
uint32_t greatest_horizon(const Run *run, uint32_t most_jobs);
void draw_set(Run *run, Shape shape, Chance *chance);
/* Makes some task of the set take longer than its period, on several cores, so that its jobs wait for the ones before them. */
void make_overrun(Run *run, Chance *chance);
void serve(Run *run, Fault fault, Chance *chance);

#endif
