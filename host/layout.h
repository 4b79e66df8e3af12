/* What the bytes of a file say from the front on, as far as they go. It is read and not judged: where a file is refused, this shows
   what could be read, and where that ends. */
#ifndef OCTALMURE_LAYOUT_H
#define OCTALMURE_LAYOUT_H

#include <octalmure.h>
#include <stdbool.h>

/* The parts of a file, in their order. */
typedef enum { SETTING_COUNT, SETTING, TASK_COUNT, TASKS, RECORD_COUNT, RECORDS, END } Part;

typedef struct {
    const uint8_t *bytes;
    size_t length;
    Part part;    /* the first part that cannot be read on from: its bytes are not all there, or it is a count that is not allowed */
    bool cut;     /* its bytes are not all there */
    size_t begin; /* where it begins */
    uint32_t setting_count, task_count, record_count; /* those that are there; 0 otherwise */
    struct octalmure_setting setting;
    uint32_t tasks, records; /* how many whole ones are there */
    size_t tasks_at, records_at;
} Layout;

Layout layout_of(const uint8_t *bytes, size_t length);
/* Whether all bytes of this part are there. */
bool read_through(const Layout *layout, Part part);
struct octalmure_task task_of(const Layout *layout, uint32_t number);
struct octalmure_record record_of(const Layout *layout, uint32_t number);

/* Of a run that obeys rule 1: when the job of this record is ready, at the later of its release and the end of the job before it of
   its task, if there is one. By rule 1 that job's record is the one before. */
uint32_t ready_of(const Layout *layout, uint32_t number);
/* A record's deadline, (j + 1)P + O of its task; false if there is no such task. */
bool deadline_of(const Layout *layout, const struct octalmure_record *record, uint64_t *deadline);
/* Of a run that the library has accepted: by how many ticks the record is late; 0 if it is not. */
uint64_t late_by(const Layout *layout, const struct octalmure_record *record);

#endif
