/* Where the marks of each record stand in a picture of lanes, one for each core: above a lane's bars the waits, below them the
   deadlines. What would cover each other in a lane stands in rows, which share a height that has a limit. */
#ifndef OCTALMURE_LANES_H
#define OCTALMURE_LANES_H

#include "layout.h"

typedef struct {
    double top, height;
} Band;

typedef struct {
    uint32_t core;    /* 0: what is on no core that the run has */
    Band waits, bars; /* all of them */
    double due;       /* where the marks of deadlines point to */
} Lane;

typedef struct {
    uint32_t count;
    Lane lanes[OCTALMURE_MOST_CORES + 1];
    uint32_t lane[OCTALMURE_MOST_JOBS];                         /* of each record */
    Band bars[OCTALMURE_MOST_JOBS], waits[OCTALMURE_MOST_JOBS]; /* of each record */
    double bottom;
} Lanes;

/* The instants of a record's bar: from its start to its end, or to its start again if it ends before. */
uint32_t bar_end(const struct octalmure_record *record);
/* Whether it is known when the record's job was ready, and that was before its start. 'ready' says that it is known of all. */
bool waited(const Layout *layout, bool ready, uint32_t number);
/* From this height down. */
void set_lanes(Lanes *lanes, const Layout *layout, bool ready, double top);

#endif
