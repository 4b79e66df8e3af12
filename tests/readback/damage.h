/* Files that no server writes: by seed, each a Case of tests/independent. */
#ifndef OCTALMURE_DAMAGE_H
#define OCTALMURE_DAMAGE_H

#include "cases.h"
#include "chance.h"

/* Some bytes or numbers of the file become others, or some are cut off or added. */
void damage(Case *made, Chance *chance);
/* Allowed setting, tasks and counts, and records of any numbers: never refused, and seldom permitted. */
void make_wild(Case *made, Chance *chance);
/* Bytes of no meaning. */
void make_noise(Case *made, Chance *chance);

/* Some bytes of a table become others, or some are cut off; or, as far as there is room, all lines but the header stand there twice, or
   so many follow that there is one too many. Gives how many bytes it has then. */
size_t damage_table(uint8_t *table, size_t length, size_t room, Chance *chance);

#endif
