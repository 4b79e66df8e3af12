/* Which instants a picture shows, and where. The numbers are those of the picture as it is written; the page's script puts the marks
   anew, by the instants that each of them carries, where another width or part is looked at. */
#ifndef OCTALMURE_WINDOW_H
#define OCTALMURE_WINDOW_H

#include <stdio.h>

#include "layout.h"

/* In pixels: what the names of the lanes take, what is left free at the other side, the whole; the least width of a bar; and below which
   it has only a thin edge, which would cover it otherwise. */
enum { LEFT = 72, RIGHT = 14, WIDTH = 1000, LEAST = 3, THIN = 8 };

typedef struct {
    uint64_t from, to;       /* the run, with H and the deadlines that are not far behind */
    uint64_t earliest, last; /* and with every deadline */
} Window;

/* 'ready' says that it is known when the jobs were ready. */
Window window_of(const Layout *layout, bool ready);
double x_of(const Window *window, uint64_t instant);

/* Attributes of a mark: its instants, and where they are. A span is no narrower than LEAST; an instant that is not in the window stands
   at its edge. */
void put_span(FILE *out, const Window *window, uint64_t from, uint64_t to);
/* Whether a span is so narrow that its edge is thin. */
bool is_thin(const Window *window, uint64_t from, uint64_t to);
void put_instant(FILE *out, const Window *window, uint64_t instant);
/* From this instant on, without an end. */
void put_endless(FILE *out, const Window *window, uint64_t from);

#endif
