/* Tables written by hand, with what is to be said of each by the request's own words. */
#ifndef OCTALMURE_HANDMADE_H
#define OCTALMURE_HANDMADE_H

#include "subject.h"
#include "worked.h"

Counted try_handmade_tables(const Subject *subject);

#endif
