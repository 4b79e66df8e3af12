/* The trial of import and export: what they do with the tables of a seed. */
#ifndef OCTALMURE_INOUT_H
#define OCTALMURE_INOUT_H

#include <stdbool.h>
#include <stdint.h>

#include "subject.h"
#include "worked.h"

typedef struct {
    const Subject *subject, *oracle;
    bool self; /* the subject is the oracle: it is held to the other reading of tables as well */
    uint64_t seed;
    const char *path; /* NULL, or where the first table that they differ on is left, as PATH.table, and its file, as PATH.file */
} Asked;

/* Tries so many cases, and the long tables; prints what was met. If those were enough cases, each thing never met has failed. */
Counted try_tables(const Asked *asked, uint64_t count, bool enough);

#endif
