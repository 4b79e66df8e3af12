/* Narrow faults in a permitted run. What results is often, and not always, a run that breaks the rule that was aimed at. */
#ifndef OCTALMURE_SPOIL_H
#define OCTALMURE_SPOIL_H

#include "server.h"

void spoil_rule(Run *run, uint32_t rule, Chance *chance);
/* One number of the setting, a task or a record becomes another one, mostly a neighbour. */
void spoil_number(Run *run, Chance *chance);
/* Some records move to the greatest times that four bytes hold. */
void spoil_to_the_top(Run *run, Chance *chance);

#endif
