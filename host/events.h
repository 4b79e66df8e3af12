#ifndef OCTALMURE_EVENTS_H
#define OCTALMURE_EVENTS_H

#include "sentences.h"

/* A run that is not refused, in the trace event format: one JSON document, each event on a line of its own, one tick a microsecond.
   docs/FORMAT.md lists the events and what stands in them. */
void print_events(FILE *out, const Said *of, const struct octalmure_answer *answer);

#endif
