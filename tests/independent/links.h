/* How a record can come to start when it does, and how its chain can go. How often each of these was met. */
#ifndef OCTALMURE_LINKS_H
#define OCTALMURE_LINKS_H

#include <stddef.h>
#include <stdint.h>

enum {
    /* started at its release */
    AT_RELEASE,
    AT_RELEASE_CORE_ENDED,
    AT_RELEASE_PRECEDING_ENDED_HERE,
    AT_RELEASE_PRECEDING_ENDED_ELSEWHERE,
    AT_RELEASE_BOTH_ENDED,
    AT_RELEASE_OTHER_ENDED,
    /* waited for the preceding job */
    PRECEDING_HERE,
    PRECEDING_ELSEWHERE,
    PRECEDING_AND_CORE,
    PRECEDING_AND_OTHER,
    /* waited for the core */
    CORE_FIRST_JOB,
    CORE_PRECEDING_LONG_OVER,
    CORE_PRECEDING_JUST_OVER,
    CORE_AND_OTHER,
    CORE_DUE_LATER,
    CORE_DUE_SOONER,
    CORE_OTHER_A_TICK_BEFORE,
    SHARED_CAUSE,
    /* the chain */
    PRECEDING_ALONE,
    CORES_ALONE,
    PRECEDING_AND_CORES,
    OVER_THREE_CORES,
    OVER_H,
    LATE_RECORD,
    TIMELY_RECORD,
    FIRST_RELEASED_LATE,
    EVERY_RECORD,
    ON_SIXTEEN_CORES,
    LONGEST_PRECEDING,
    LONGEST_CORES,
    LONGEST_BOTH,
    LINKINGS
};

/* By how many chains. */
typedef struct {
    uint64_t met[LINKINGS];
} Links;

/* The right chain of a record of an accepted file: so many numbers. */
void meet_chain(Links *links, const uint8_t *file, size_t length, const uint8_t *numbers, size_t count);
/* Prints the counts. Returns how many of them are 0. */
uint64_t tell_links(const Links *links);

#endif
