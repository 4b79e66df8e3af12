#ifndef OCTALMURE_WRITTEN_H
#define OCTALMURE_WRITTEN_H

#include <octalmure.h>

#include "output.h"
#include "status.h"

/* How a word that writes ends: what was written goes to OUT, and the line of a refusal to standard output, as does the former where OUT
   is NULL. */
Status give_written(const struct octalmure_answer *answer, const uint8_t *written, const char *out, Output *output);

#endif
