/* Where "ready" and "released" part: a job is released and the one before it has not ended. How often each of these was met. */
#ifndef OCTALMURE_APART_H
#define OCTALMURE_APART_H

#include <stddef.h>
#include <stdint.h>

enum {
    /* accepted */
    FOLLOWS,
    FOLLOWS_THREE_TIMES,
    IDLES,
    OVERTAKES,
    OVERTAKES_BY_A_TICK,
    /* rules 7, 8 and 9 */
    ORDER_AT_THE_END,
    ORDER_AFTER_THE_END,
    IDLING_AT_THE_END,
    IDLING_AFTER_THE_END,
    BESIDE_BY_A_TICK,
    BESIDE_BY_MORE,
    BESIDE_FROM_THE_START,
    BESIDE_TWICE,
    ORDER_BEFORE_BESIDE,
    IDLING_BEFORE_BESIDE,
    /* carried */
    CARRIED_IDLES,
    CARRIED_OVERTAKES,
    CARRIED_FOLLOWS_KEPT,
    CARRIED_FOLLOWS_KEPT_TO_H,
    CARRIED_FOLLOWS_AT_H,
    CARRIED_FOLLOWS_NEW,
    CARRIED_FOLLOWS_OTHERWISE,
    CARRIED_TIES,
    PARTINGS
};

/* In how many files. */
typedef struct {
    uint64_t met[PARTINGS];
} Apart;

/* A file that was checked, and the five numbers that are right for it; a file that was carried, and what it was carried to. */
void meet_checked(Apart *apart, const uint8_t *file, size_t length, const uint32_t five[5]);
void meet_carried(Apart *apart, const uint8_t *file, size_t length, const uint8_t *output, size_t output_length);
/* Prints the counts. Returns how many of them are 0. */
uint64_t tell_apart(const Apart *apart);

#endif
