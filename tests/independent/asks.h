/* Cases of why, by seed: runs, and of each the records that are asked about and how. */
#ifndef OCTALMURE_ASKS_H
#define OCTALMURE_ASKS_H

#include "cases.h"
#include "chance.h"

/* Which record: one that there is, or the least number that is none, the one after it, the greatest of all, one that is a record's
   but for a bit that no record's number has, or any. */
typedef enum { A_RECORD, THE_COUNT, AFTER_THE_COUNT, GREATEST_NUMBER, WITH_A_HIGH_BIT, ANY_NUMBER, WHICHS } Which;

/* How many bytes the output has, beside those of the chain. */
typedef enum { NO_BYTE, ONE_SHORT, FEWER, EXACTLY, SEVEN_MORE, MANY_MORE, ROOMS } Room;

typedef struct {
    Which which;
    uint32_t record;
    Room room;
    size_t answer_length;
} Ask;

/* The file of case number n of a seed, which does not depend on the cases before it; and what draws its questions. A few have long
   chains. */
Chance make_asked_run(uint64_t seed, uint64_t number, Case *made);
/* A question about a record that there is, and one about a number that is none of so many records. */
Ask ask_about(uint32_t record, Chance *chance);
Ask ask_about_none(uint32_t records, Chance *chance);
/* How many bytes are lent where the chain has so many numbers. */
size_t room_for(Room room, uint32_t numbers, Chance *chance);

const char *which_name(uint32_t which);
const char *room_name(uint32_t room);

#endif
