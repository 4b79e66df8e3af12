#ifndef OCTALMURE_TABLES_H
#define OCTALMURE_TABLES_H

#include <stdio.h>

#include "layout.h"
#include "status.h"

/* The setting, the tasks and the records, as far as they could be read. The status is that of the check: deadlines are told where the
   file is not refused, and lateness where the run is accepted, since the library says it of no other. */
void print_tables(FILE *out, const Layout *layout, Status status);

#endif
