/* A run that the simulated server recorded, as a file. */
#ifndef OCTALMURE_FILED_H
#define OCTALMURE_FILED_H

#include "cases.h"
#include "server.h"

void write_file(const Run *run, Case *made);

#endif
