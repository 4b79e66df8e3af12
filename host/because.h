/* What 'explain' says in sentences, a line for each thing that is said. */
#ifndef OCTALMURE_BECAUSE_H
#define OCTALMURE_BECAUSE_H

#include "reason.h"
#include "sentences.h"

/* What comes before the reasons: what the check said. Of a run that is not accepted that is all. */
void say_before_reasons(FILE *out, const Said *of, const struct octalmure_answer *answer);
/* A late record of an accepted run and its reason: by how much it is late, why each job of the chain began when it did, and the sum. */
void say_reason(FILE *out, const Said *of, const Reason *reason);
/* Its parts. Of the chain, the link of this number; 0 is that of the late job itself, which is then called 'it'. */
void say_how_late(FILE *out, const Said *of, const Job *late);
void say_link(FILE *out, const Said *of, const Reason *reason, uint32_t number);
void say_sum(FILE *out, const Reason *reason);

#endif
