/* How near waits of accepted runs come to the bound of request 5, and where a bound that looks like it is passed: how often each of
   these was met. */
#ifndef OCTALMURE_NEAR_H
#define OCTALMURE_NEAR_H

#include <stddef.h>
#include <stdint.h>

enum {
    NO_WAIT,
    WAITED,
    WAITED_HELD_UP,
    WAITED_LATE,
    WAITED_FROM_H,
    /* the bound attained, or missed by one */
    ATTAINED_ON_ONE_CORE,
    ATTAINED_ON_SEVERAL,
    ATTAINED_ON_SIXTEEN,
    ATTAINED_LATE,
    ATTAINED_BY_TIMES,
    MISSED_BY_ONE,
    /* what does not bound it */
    ABOVE_WITH_A_CORE_MORE,
    ABOVE_FROM_RELEASE,
    ABOVE_WITHOUT_ONE,
    ABOVE_THOSE_BEFORE,
    ABOVE_LEAST_TIMES,
    ABOVE_ANOTHER_RUN,
    NEARNESSES
};

/* By how many records of accepted runs. */
typedef struct {
    uint64_t met[NEARNESSES];
} Near;

/* An accepted file; and one with another of the same set, which has the same jobs. */
void meet_waits(Near *near, const uint8_t *file, size_t length);
void meet_set(Near *near, const uint8_t *file, size_t length, const uint8_t *other, size_t other_length);
/* Prints the counts. Returns how many of them are 0. */
uint64_t tell_near(const Near *near);

#endif
