#include "near.h"

#include <stdbool.h>

#include "parts.h"
#include "teller.h"
#include "waits.h"

static const char *const names[NEARNESSES] = {
    [NO_WAIT] = "started when it was ready",
    [WAITED] = "waited",
    [WAITED_HELD_UP] = "waited, and was ready after its release",
    [WAITED_LATE] = "waited, and is late",
    [WAITED_FROM_H] = "waited, and began from H on",
    [ATTAINED_ON_ONE_CORE] = "waited just as long as the bound says, on one core",
    [ATTAINED_ON_SEVERAL] = "waited just as long as the bound says, on several cores",
    [ATTAINED_ON_SIXTEEN] = "waited just as long as the bound says, on 16 cores",
    [ATTAINED_LATE] = "waited just as long as the bound says, and is late",
    [ATTAINED_BY_TIMES] = "waited just as long as the greatest times say",
    [MISSED_BY_ONE] = "N times the wait is one less than the bound",
    [ABOVE_WITH_A_CORE_MORE] = "N + 1 times the wait is more than the bound",
    [ABOVE_FROM_RELEASE] = "N times the time from release to start is more than the bound",
    [ABOVE_WITHOUT_ONE] = "N times the wait is more than the others' lengths but for one record",
    [ABOVE_THOSE_BEFORE] = "N times the wait is more than the lengths of the records before it",
    [ABOVE_LEAST_TIMES] = "N times the wait is more than the others' least times",
    [ABOVE_ANOTHER_RUN] = "N times the wait is more than the others' lengths in another run of the set",
};

static bool is_late(const Run *run, const Record *record) {
    const Task *task = &run->tasks[record->task];
    return record->end > ((uint64_t)record->job + 1) * task->period + task->offset;
}

static void see_attained(const Run *run, const Record *record, bool *seen) {
    seen[ATTAINED_ON_ONE_CORE] = run->cores == 1;
    seen[ATTAINED_ON_SEVERAL] = run->cores > 1;
    seen[ATTAINED_ON_SIXTEEN] = run->cores == MOST_CORES;
    seen[ATTAINED_LATE] = is_late(run, record);
}

/* Of all other records: what they may take at least; how long the shortest of them took; what those before it took. */
typedef struct {
    uint64_t least, shortest, before;
} Others;

static Others all_but(const Run *run, uint32_t record) {
    Others others = {0, UINT32_MAX, 0};
    for (uint32_t k = 0; k < run->record_count; k++) {
        const Record *other = &run->records[k];
        uint64_t took = other->end - other->start;
        if (k != record) {
            others.least += run->tasks[other->task].least;
            others.shortest = took < others.shortest ? took : others.shortest;
            others.before += k < record ? took : 0;
        }
    }
    return others;
}

static void see_wait(const Run *run, uint32_t k, const Bound *bound, bool *seen) {
    const Record *record = &run->records[k];
    Others others = all_but(run, k);
    seen[WAITED] = true;
    seen[WAITED_HELD_UP] = record->start - bound->wait > record->release;
    seen[WAITED_LATE] = is_late(run, record);
    seen[WAITED_FROM_H] = record->start >= run->horizon;
    if (bound->on_cores == bound->lengths) {
        see_attained(run, record, seen);
    }
    seen[ATTAINED_BY_TIMES] = bound->on_cores == bound->greatest;
    seen[MISSED_BY_ONE] = bound->on_cores + 1 == bound->lengths;
    seen[ABOVE_WITH_A_CORE_MORE] = bound->on_cores + bound->wait > bound->lengths;
    seen[ABOVE_WITHOUT_ONE] = bound->on_cores > bound->lengths - others.shortest;
    seen[ABOVE_THOSE_BEFORE] = bound->on_cores > others.before;
    seen[ABOVE_LEAST_TIMES] = bound->on_cores > others.least;
}

void meet_waits(Near *near, const uint8_t *file, size_t length) {
    static Run run;
    static Bound bounds[MOST_JOBS];
    oracle_read(file, length, &run);
    oracle_bounds(file, length, bounds);
    for (uint32_t k = 0; k < run.record_count; k++) {
        const Record *record = &run.records[k];
        bool seen[NEARNESSES] = {false};
        seen[NO_WAIT] = bounds[k].wait == 0;
        seen[ABOVE_FROM_RELEASE] = (uint64_t)run.cores * (record->start - record->release) > bounds[k].lengths;
        if (bounds[k].wait > 0) {
            see_wait(&run, k, &bounds[k], seen);
        }
        for (uint32_t i = 0; i < NEARNESSES; i++) {
            near->met[i] += seen[i];
        }
    }
}

void meet_set(Near *near, const uint8_t *file, size_t length, const uint8_t *other, size_t other_length) {
    static Bound here[MOST_JOBS], there[MOST_JOBS];
    uint32_t count = oracle_bounds(file, length, here);
    oracle_bounds(other, other_length, there);
    for (uint32_t k = 0; k < count; k++) {
        near->met[ABOVE_ANOTHER_RUN] += here[k].on_cores > there[k].lengths;
    }
}

uint64_t tell_near(const Near *near) {
    return tell_lines("how long records of accepted runs waited", near->met, names, NEARNESSES);
}
