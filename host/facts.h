#ifndef OCTALMURE_FACTS_H
#define OCTALMURE_FACTS_H

#include "sentences.h"
#include "status.h"

/* What a check of the file said, and the reason of each late record, as one JSON document on a line of its own. The same keys stand in
   every document; a fact that there is none of is null. docs/FORMAT.md lists them. TROUBLE once it was said why it is not whole. */
Status print_facts(FILE *out, const Said *of, const struct octalmure_answer *answer);

#endif
