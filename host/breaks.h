#ifndef OCTALMURE_BREAKS_H
#define OCTALMURE_BREAKS_H

#include "sentences.h"

/* Where a run first breaks the rule that this answer names, and what its records say there. */
void say_where_it_breaks(FILE *out, const Said *of, const struct octalmure_answer *answer);

#endif
