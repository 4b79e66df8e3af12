/* Runs worked by hand for request 5: how long a record waits, and what all others take. */
#ifndef OCTALMURE_BOUNDS_H
#define OCTALMURE_BOUNDS_H

#include "near.h"
#include "subject.h"
#include "worked.h"

/* The subject must accept each run, and the checker's own reading give the numbers; what is met in them is counted, too. */
Counted try_bounds(const Subject *subject, Near *near);

#endif
