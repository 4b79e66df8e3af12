/* The page of a run: what its parts are made from, and the parts. Each part writes HTML to the document; what is text goes through
   the stream beside it. */
#ifndef OCTALMURE_PAGE_H
#define OCTALMURE_PAGE_H

#include "namedrun.h"
#include "reason.h"

/* A name has so many characters at most where it stands for each record anew; in sentences it is whole. */
enum { MOST_SHORT = 120, SHORT_BYTES = 4 * MOST_SHORT + 4 };

typedef struct {
    FILE *out, *text;
    const Input *file;
    const Said *of;    /* with whole names, marked */
    Said brief;        /* with short ones */
    const Layout *layout;
    struct octalmure_answer answer;
    bool refused, broken, accepted;
    bool ready;        /* it is known when the jobs were ready: the run obeys rule 1 */
    uint32_t late_count, late[OCTALMURE_MOST_JOBS];
    Status status;     /* TROUBLE once a part could not be made */
    Names short_names;
    char short_text[OCTALMURE_MOST_TASKS][SHORT_BYTES];
} Page;

/* One record, and a job: 'record 4 (task 3, job 0)', '3.0', by short names. */
void put_record(const Page *page, uint32_t number);
void put_job(const Page *page, const struct octalmure_record *record);
/* '8 ticks late' */
void put_late(const Page *page, uint64_t by);

/* The picture of a file that is not refused. */
void put_picture(Page *page);
/* The drawing in it. */
void put_drawing(Page *page);
/* Of an accepted run: the late records as a list, and the reason of each. */
void put_late_list(Page *page);
void put_reasons(Page *page);
/* The records and the tasks that could be read, as tables. */
void put_records(Page *page);
void put_tasks(Page *page);

#endif
