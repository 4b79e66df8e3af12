/* What a task, a job and a record are called where something is said of them. */
#ifndef OCTALMURE_CALLED_H
#define OCTALMURE_CALLED_H

#include <stdio.h>

#include "names.h"

/* What stands before and behind each name, if the names are marked. Neither stands in a name: control characters are shown as '?'. */
enum { NAME_BEGINS = 1, NAME_ENDS = 2 };

/* By number, and by name where the names, which may be NULL, have one for the task:
     task 3                     "Overnight valuation" (task 3)
     task 3, job 0              "Overnight valuation", job 0
     record 4 (task 3, job 0)   "Overnight valuation", job 0 (record 4)
   A record is called by its task and job too, since its number is another in a carried run. */
void call_task(FILE *out, const Names *names, uint32_t task);
void call_job(FILE *out, const Names *names, uint32_t task, uint32_t job);
void call_record(FILE *out, const Names *names, uint32_t number, uint32_t task, uint32_t job);

#endif
