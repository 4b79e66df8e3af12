/* Runs worked by hand with the chain of each of their records, by the request's own words. */
#ifndef OCTALMURE_CHAINS_H
#define OCTALMURE_CHAINS_H

#include "subject.h"
#include "worked.h"

Counted try_chains(const Subject *subject);

#endif
