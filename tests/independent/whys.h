/* The trial of why: what it says of records of the runs of a seed. */
#ifndef OCTALMURE_WHYS_H
#define OCTALMURE_WHYS_H

#include <stdbool.h>
#include <stdint.h>

#include "inout.h"
#include "worked.h"

/* Tries so many runs, and some long files; prints what was met. If those were enough runs, each thing never met has failed. */
Counted try_whys(const Asked *asked, uint64_t count, bool enough);

#endif
