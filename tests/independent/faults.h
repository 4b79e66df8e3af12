/* What is done to a table that is right: each fault says which refusal it is for, and in which line. */
#ifndef OCTALMURE_FAULTS_H
#define OCTALMURE_FAULTS_H

#include "chance.h"
#include "tables.h"

/* Where the lines come from. Those of the file are taken if it has records that can be read, and are any others otherwise. */
typedef enum { SORTED, IN_ANY_ORDER, SOME, NONE, AT_BORDERS, ALIKE, FULL_511, FULL_512, FULL_513, FULL_514 } Source;

typedef struct {
    const char *name;
    Source source;
    void (*spoil)(TableCase *, Chance *);
} Kind;

/* There are BORDERS of them. */
extern const Kind *const kinds;

void nothing(TableCase *made, Chance *chance);
void cut_anywhere(TableCase *made, Chance *chance);
/* A table that is cut behind a line feed is one with fewer lines. */
void cut_to(TableCase *made, size_t length);
/* How many lines are closed. */
uint32_t lines_of(const TableCase *made);

#endif
