/* Why a late job began when it did: the facts, which are the library's chain and what the run file says of each job in it. */
#ifndef OCTALMURE_REASON_H
#define OCTALMURE_REASON_H

#include "layout.h"
#include "status.h"

/* What is known of a job, from its record and its task. */
typedef struct {
    uint32_t number; /* of its record */
    struct octalmure_record record;
    uint32_t ready, length;
    uint64_t deadline;
} Job;

typedef enum { AT_RELEASE, AFTER_PRECEDING_JOB, AFTER_JOB_ON_CORE } Began;

/* A job of the chain. The one whose end it waited for is the next of the chain; the last waited for none. */
typedef struct {
    Job job;
    Began began;
    bool due_sooner; /* than the one whose end it waited for */
} Link;

typedef struct {
    uint32_t count;
    Link links[OCTALMURE_MOST_JOBS]; /* from the late job back to the first of the chain, which began at its release */
} Reason;

/* The late records of an accepted run, soonest deadline first, of those with equal deadlines the lowest-numbered first. Gives how
   many they are. */
uint32_t late_records(const Layout *layout, uint32_t numbers[OCTALMURE_MOST_JOBS]);
/* The reason of a record of an accepted run. TROUBLE once it was said that the library gives no chain. */
Status find_reason(const Layout *layout, uint32_t number, Reason *reason);

#endif
