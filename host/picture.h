#ifndef OCTALMURE_PICTURE_H
#define OCTALMURE_PICTURE_H

#include <stdio.h>

#include "layout.h"

/* The most and the fewest columns that a picture takes, whatever the terminal says. */
enum { MOST_WIDTH = 1000, LEAST_WIDTH = 40 };

/* A line for each core, in lines of at most so many columns: its records from start to end, H, and the deadlines of its records.
   Late records are told apart if the run is accepted, as the library has then said that there are some. */
void draw_cores(FILE *out, const Layout *layout, bool accepted, size_t width);

#endif
