/* Which column of a picture an instant has. */
#ifndef OCTALMURE_SCALE_H
#define OCTALMURE_SCALE_H

#include "layout.h"

/* Either one tick has several columns, or one column several ticks; the other number is 1. */
typedef struct {
    uint64_t from, to;       /* the first instant and the last one */
    uint64_t wide;           /* columns for a tick */
    uint64_t ticks;          /* ticks for a column */
    size_t columns;          /* the last of them is that of the last instant */
} Scale;

/* A record has a place in the picture if its core is one and it ends after it starts. */
bool drawable(const Layout *layout, const struct octalmure_record *record);
/* From the first start to H, the last end and the deadlines that are not far behind these, in at most so many columns. */
Scale scale_of(const Layout *layout, size_t most);

size_t column_of(const Scale *scale, uint64_t instant);
/* The last column of what ends at this instant, so that the instant itself is no longer in it. */
size_t last_column_of(const Scale *scale, uint64_t end);

#endif
