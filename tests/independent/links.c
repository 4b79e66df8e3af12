#include "links.h"

#include <stdbool.h>

#include "parts.h"
#include "teller.h"

static const char *const names[LINKINGS] = {
    [AT_RELEASE] = "at its release: the chain is the record alone",
    [AT_RELEASE_CORE_ENDED] = "at its release, and a job of another task ended on its core just then",
    [AT_RELEASE_PRECEDING_ENDED_HERE] = "at its release, and the preceding job ended just then, on its core",
    [AT_RELEASE_PRECEDING_ENDED_ELSEWHERE] = "at its release, and the preceding job ended just then, on another core",
    [AT_RELEASE_BOTH_ENDED] = "at its release, and both ended just then, on two cores",
    [AT_RELEASE_OTHER_ENDED] = "at its release, and only jobs that it could not wait for ended just then",
    [PRECEDING_HERE] = "for the preceding job, on its own core",
    [PRECEDING_ELSEWHERE] = "for the preceding job, on another core; its own was free before",
    [PRECEDING_AND_CORE] = "for the preceding job, on another core, though a job ended on its own just then too",
    [PRECEDING_AND_OTHER] = "for the preceding job, and a job on a third core ended just then too",
    [CORE_FIRST_JOB] = "for its core: the first job of its task",
    [CORE_PRECEDING_LONG_OVER] = "for its core: the preceding job was over by its release",
    [CORE_PRECEDING_JUST_OVER] = "for its core: the preceding job ended after its release, before its start",
    [CORE_AND_OTHER] = "for its core, and a job ended on another core just then too",
    [CORE_DUE_LATER] = "for its core: held by a job that is due later",
    [CORE_DUE_SOONER] = "for its core: held by a job that is due sooner, or with it",
    [CORE_OTHER_A_TICK_BEFORE] = "for its core: a job had ended on another core a tick before its start",
    [SHARED_CAUSE] = "another record waits for the same end",
    [PRECEDING_ALONE] = "chain: through preceding jobs alone",
    [CORES_ALONE] = "chain: through cores alone",
    [PRECEDING_AND_CORES] = "chain: through both",
    [OVER_THREE_CORES] = "chain: over three cores and more",
    [OVER_H] = "chain: the record began from H on, its first job before H",
    [LATE_RECORD] = "chain: of a record that is late",
    [TIMELY_RECORD] = "chain: of a record that waited and is in time",
    [FIRST_RELEASED_LATE] = "chain: its first job was released later than jP + O",
    [EVERY_RECORD] = "chain: every record of the run, and more than one",
    [ON_SIXTEEN_CORES] = "chain: of several records, on 16 cores",
    [LONGEST_PRECEDING] = "chain: 512 records, through preceding jobs alone",
    [LONGEST_CORES] = "chain: 512 records, through cores alone",
    [LONGEST_BOTH] = "chain: 512 records, through both",
};

/* ---- the record ---- */

/* Records other than this one that ended just as it started: the preceding job, one of another task on its core, and others. */
typedef struct {
    const Record *preceding, *beside;
    uint32_t others;
} Ended;

static bool precedes(const Record *before, const Record *record) {
    return before->task == record->task && before->job + 1 == record->job;
}

static Ended ended_at_start(const Run *run, const Record *record) {
    Ended ended = {NULL, NULL, 0};
    for (uint32_t k = 0; k < run->record_count; k++) {
        const Record *other = &run->records[k];
        if (other->end != record->start) {
            continue;
        }
        if (precedes(other, record)) {
            ended.preceding = other;
        } else if (other->core == record->core) {
            ended.beside = other;
        } else {
            ended.others++;
        }
    }
    return ended;
}

static uint64_t due(const Run *run, const Record *record) {
    const Task *task = &run->tasks[record->task];
    return ((uint64_t)record->job + 1) * task->period + task->offset;
}

static void see_release(const Record *record, const Ended *ended, bool *seen) {
    bool here = ended->preceding != NULL && ended->preceding->core == record->core;
    bool elsewhere = ended->preceding != NULL && !here;
    seen[AT_RELEASE] = true;
    seen[AT_RELEASE_CORE_ENDED] = ended->beside != NULL && ended->preceding == NULL;
    seen[AT_RELEASE_PRECEDING_ENDED_HERE] = here;
    seen[AT_RELEASE_PRECEDING_ENDED_ELSEWHERE] = elsewhere && ended->beside == NULL;
    seen[AT_RELEASE_BOTH_ENDED] = elsewhere && ended->beside != NULL;
    seen[AT_RELEASE_OTHER_ENDED] = ended->preceding == NULL && ended->beside == NULL && ended->others > 0;
}

static void see_preceding(const Record *record, const Ended *ended, bool *seen) {
    bool here = ended->preceding->core == record->core;
    seen[PRECEDING_HERE] = here;
    seen[PRECEDING_ELSEWHERE] = !here && ended->beside == NULL;
    seen[PRECEDING_AND_CORE] = !here && ended->beside != NULL;
    seen[PRECEDING_AND_OTHER] = ended->others > 0;
}

/* The end of its task's preceding job; 0 if there is none. */
static uint32_t preceding_end(const Run *run, const Record *record) {
    for (uint32_t k = 0; k < run->record_count; k++) {
        if (precedes(&run->records[k], record)) {
            return run->records[k].end;
        }
    }
    return 0;
}

static bool some_end_elsewhere(const Run *run, const Record *record, uint32_t instant) {
    for (uint32_t k = 0; k < run->record_count; k++) {
        if (run->records[k].end == instant && run->records[k].core != record->core) {
            return true;
        }
    }
    return false;
}

static void see_core(const Run *run, const Record *record, const Ended *ended, bool *seen) {
    uint32_t over = preceding_end(run, record);
    bool later = due(run, ended->beside) > due(run, record);
    seen[CORE_FIRST_JOB] = record->job == 0;
    seen[CORE_PRECEDING_LONG_OVER] = record->job > 0 && over <= record->release;
    seen[CORE_PRECEDING_JUST_OVER] = record->job > 0 && over > record->release;
    seen[CORE_AND_OTHER] = ended->others > 0;
    seen[CORE_DUE_LATER] = later;
    seen[CORE_DUE_SOONER] = !later;
    seen[CORE_OTHER_A_TICK_BEFORE] = some_end_elsewhere(run, record, record->start - 1);
}

/* Whether another record that starts with this one waits for the same cause. */
static bool is_shared(const Run *run, const Record *record, const Record *cause) {
    for (uint32_t k = 0; k < run->record_count; k++) {
        const Record *other = &run->records[k];
        bool waits = other != record && other->start == cause->end && other->release < other->start;
        if (waits && (precedes(cause, other) || (other->core == cause->core && preceding_end(run, other) < other->start))) {
            return true;
        }
    }
    return false;
}

static void see_record(const Run *run, const Record *record, bool *seen) {
    Ended ended = ended_at_start(run, record);
    if (record->start == record->release) {
        see_release(record, &ended, seen);
        return;
    }
    if (ended.preceding != NULL) {
        see_preceding(record, &ended, seen);
    } else {
        see_core(run, record, &ended, seen);
    }
    seen[SHARED_CAUSE] = is_shared(run, record, ended.preceding != NULL ? ended.preceding : ended.beside);
}

/* ---- the chain ---- */

static uint32_t number_at(const uint8_t *bytes) {
    return (uint32_t)bytes[0] | (uint32_t)bytes[1] << 8 | (uint32_t)bytes[2] << 16 | (uint32_t)bytes[3] << 24;
}

/* How many links go to a preceding job, and how many cores there are in the chain. */
typedef struct {
    uint32_t preceding, cores;
} Ways;

static Ways ways_of(const Run *run, const uint8_t *numbers, size_t count) {
    Ways ways = {0, 0};
    bool on[MOST_CORES + 1] = {false};
    for (size_t i = 0; i < count; i++) {
        const Record *record = &run->records[number_at(numbers + 4 * i)];
        ways.preceding += i + 1 < count && precedes(&run->records[number_at(numbers + 4 * (i + 1))], record);
        ways.cores += !on[record->core];
        on[record->core] = true;
    }
    return ways;
}

static void see_chain(const Run *run, const uint8_t *numbers, size_t count, bool *seen) {
    const Record *record = &run->records[number_at(numbers)], *first = &run->records[number_at(numbers + 4 * (count - 1))];
    const Task *task = &run->tasks[first->task];
    Ways ways = ways_of(run, numbers, count);
    bool several = count > 1, all = several && ways.preceding == count - 1, none = several && ways.preceding == 0;
    bool both = several && !all && !none;
    seen[PRECEDING_ALONE] = all;
    seen[CORES_ALONE] = none;
    seen[PRECEDING_AND_CORES] = both;
    seen[OVER_THREE_CORES] = ways.cores >= 3;
    seen[OVER_H] = record->start >= run->horizon && first->start < run->horizon;
    seen[LATE_RECORD] = record->end > due(run, record);
    seen[TIMELY_RECORD] = several && record->end <= due(run, record);
    seen[FIRST_RELEASED_LATE] = several && first->release > (uint64_t)first->job * task->period + task->offset;
    seen[EVERY_RECORD] = several && count == run->record_count;
    seen[ON_SIXTEEN_CORES] = several && run->cores == MOST_CORES;
    seen[LONGEST_PRECEDING] = all && count == MOST_JOBS;
    seen[LONGEST_CORES] = none && count == MOST_JOBS;
    seen[LONGEST_BOTH] = both && count == MOST_JOBS;
}

void meet_chain(Links *links, const uint8_t *file, size_t length, const uint8_t *numbers, size_t count) {
    bool seen[LINKINGS] = {false};
    Run run;
    oracle_read(file, length, &run);
    see_record(&run, &run.records[number_at(numbers)], seen);
    see_chain(&run, numbers, count, seen);
    for (uint32_t i = 0; i < LINKINGS; i++) {
        links->met[i] += seen[i];
    }
}

/* ---- */

uint64_t tell_links(const Links *links) {
    return tell_lines("what a record waited for, and its chain", links->met, names, LINKINGS);
}
