/* Runs worked by hand in which a job of a task waits for the one before it, with what the request's own words say of each. */
#ifndef OCTALMURE_FOLLOWING_H
#define OCTALMURE_FOLLOWING_H

#include "subject.h"
#include "worked.h"

Counted try_following_runs(const Subject *subject);

#endif
