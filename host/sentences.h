/* What was shown, in sentences. They claim no more than the library said. */
#ifndef OCTALMURE_SENTENCES_H
#define OCTALMURE_SENTENCES_H

#include <stdio.h>

#include "called.h"
#include "layout.h"
#include "number.h"

/* The run of which something is said, and the H of the recorded one: lateness of what begins before that was recorded. */
typedef struct {
    const Layout *layout;
    const Names *names; /* NULL: no task has one */
    bool carried;
    uint32_t recorded;
} Said;

/* What a check said of a file: the verdict, and then what belongs to it: every late record, or the first place, or where a refused
   file stops. */
void say_verdict(FILE *out, const Layout *layout, const struct octalmure_answer *answer);
void say_details(FILE *out, const Said *of, const struct octalmure_answer *answer);
/* Parts of these: a record by its number, its task and its job, and of a late one whether its lateness stays. */
void name_record(FILE *out, const Said *of, uint32_t number);
void say_whether_it_stays(FILE *out, const Said *of, const struct octalmure_record *record);
/* What a carry of an accepted run said. */
void say_carried(FILE *out, const Number *horizon, const struct octalmure_answer *answer);

#endif
