#ifndef OCTALMURE_STOPS_H
#define OCTALMURE_STOPS_H

#include <stdio.h>

#include "called.h"
#include "layout.h"

/* Where in its bytes a file stops that was refused with this answer, and what stands there. */
void say_where_it_stops(FILE *out, const Layout *layout, const Names *names, const struct octalmure_answer *answer);

#endif
