#include "apart.h"

#include <stdbool.h>

#include "parts.h"
#include "teller.h"

static const char *const names[PARTINGS] = {
    [FOLLOWS] = "accepted: a job starts as the one before it ends, later than its release",
    [FOLLOWS_THREE_TIMES] = "accepted: three jobs in a row do so",
    [IDLES] = "accepted: a core idles while a released job waits for the one before it",
    [OVERTAKES] = "accepted: one due later starts while a released job waits for the one before it",
    [OVERTAKES_BY_A_TICK] = "accepted: it starts a tick before that job is ready",
    [ORDER_AT_THE_END] = "rule 7: one due later starts just as the one before ends",
    [ORDER_AFTER_THE_END] = "rule 7: one due later starts after the one before ended",
    [IDLING_AT_THE_END] = "rule 8: a core idles from the end of the one before on",
    [IDLING_AFTER_THE_END] = "rule 8: a core idles some time after the end of the one before",
    [BESIDE_BY_A_TICK] = "rule 9: a tick too early",
    [BESIDE_BY_MORE] = "rule 9: earlier than that",
    [BESIDE_FROM_THE_START] = "rule 9: with the one before",
    [BESIDE_TWICE] = "rule 9: broken by several, the least is told",
    [ORDER_BEFORE_BESIDE] = "rule 7 is told, and 9 is broken too",
    [IDLING_BEFORE_BESIDE] = "rule 8 is told, and 9 is broken too",
    [CARRIED_IDLES] = "carried: a core idles while a released job waits for the one before it",
    [CARRIED_OVERTAKES] = "carried: one due later starts while a released job waits for the one before it",
    [CARRIED_FOLLOWS_KEPT] = "carried: a job starts at the end of one that was kept, after H",
    [CARRIED_FOLLOWS_KEPT_TO_H] = "carried: the same to H itself",
    [CARRIED_FOLLOWS_AT_H] = "carried: a job starts at the end of one that was kept, at H",
    [CARRIED_FOLLOWS_NEW] = "carried: a job starts at the end of one that started from H on",
    [CARRIED_FOLLOWS_OTHERWISE] = "carried: that one was recorded with another end",
    [CARRIED_TIES] = "carried: two due at once get ready at once, each by an end",
};

/* ---- jobs that wait ---- */

static uint64_t due(const Run *run, const Record *record) {
    const Task *task = &run->tasks[record->task];
    return ((uint64_t)record->job + 1) * task->period + task->offset;
}

/* The end of the job before, or 0. Rule 1 holds of the runs here. */
static uint32_t end_before(const Run *run, uint32_t k) {
    return run->records[k].job > 0 ? run->records[k - 1].end : 0;
}

/* Whether it is that end that makes the job ready, and not its release. */
static bool is_kept(const Run *run, uint32_t k) {
    return end_before(run, k) > run->records[k].release;
}

static bool follows(const Run *run, uint32_t k) {
    return is_kept(run, k) && run->records[k].start == end_before(run, k);
}

/* Records of one core do not overlap: as many cores are busy as there are records that run. */
static bool some_core_idles(const Run *run, uint32_t instant) {
    uint32_t busy = 0;
    for (uint32_t k = 0; k < run->record_count; k++) {
        busy += run->records[k].start <= instant && instant < run->records[k].end;
    }
    return busy < run->cores;
}

/* Whether one due later than b starts, not before the instant, while b is released and not ready; by a tick: at the last of it. */
static bool is_overtaken(const Run *run, uint32_t b, uint32_t instant, bool by_a_tick) {
    const Record *waits = &run->records[b];
    uint32_t end = end_before(run, b);
    for (uint32_t a = 0; is_kept(run, b) && a < run->record_count; a++) {
        const Record *starts = &run->records[a];
        bool meanwhile = waits->release <= starts->start && instant <= starts->start && starts->start < end;
        if (meanwhile && due(run, starts) > due(run, waits) && (!by_a_tick || starts->start + 1 == end)) {
            return true;
        }
    }
    return false;
}

/* ---- files ---- */

static void add(Apart *apart, const bool *seen) {
    for (uint32_t i = 0; i < PARTINGS; i++) {
        apart->met[i] += seen[i];
    }
}

static void see_accepted(const Run *run, bool *seen) {
    uint32_t in_a_row = 0;
    for (uint32_t k = 0; k < run->record_count; k++) {
        in_a_row = follows(run, k) ? in_a_row + 1 : 0;
        seen[FOLLOWS] |= in_a_row > 0;
        seen[FOLLOWS_THREE_TIMES] |= in_a_row >= 3;
        seen[IDLES] |= is_kept(run, k) && some_core_idles(run, end_before(run, k) - 1);
        seen[OVERTAKES] |= is_overtaken(run, k, 0, false);
        seen[OVERTAKES_BY_A_TICK] |= is_overtaken(run, k, 0, true);
    }
}

/* The rule is 7, 8 or 9. */
static void see_broken(const Run *run, uint32_t rule, const uint32_t *place, bool *seen) {
    uint32_t beside = 0, k = place[rule == 7 ? 1 : 0], start = run->records[k].start, end = end_before(run, k);
    uint32_t instant = rule == 7 ? run->records[place[0]].start : place[1];
    for (uint32_t i = 0; i < run->record_count; i++) {
        beside += run->records[i].start < end_before(run, i);
    }
    seen[ORDER_AT_THE_END] = rule == 7 && is_kept(run, k) && instant == end;
    seen[ORDER_AFTER_THE_END] = rule == 7 && is_kept(run, k) && instant > end;
    seen[IDLING_AT_THE_END] = rule == 8 && is_kept(run, k) && instant == end;
    seen[IDLING_AFTER_THE_END] = rule == 8 && is_kept(run, k) && instant > end;
    seen[BESIDE_BY_A_TICK] = rule == 9 && start + 1 == end;
    seen[BESIDE_BY_MORE] = rule == 9 && start + 1 < end;
    seen[BESIDE_FROM_THE_START] = rule == 9 && start == run->records[k - 1].start;
    seen[BESIDE_TWICE] = rule == 9 && beside > 1;
    seen[ORDER_BEFORE_BESIDE] = rule == 7 && beside > 0;
    seen[IDLING_BEFORE_BESIDE] = rule == 8 && beside > 0;
}

void meet_checked(Apart *apart, const uint8_t *file, size_t length, const uint32_t five[5]) {
    bool seen[PARTINGS] = {false};
    Run run;
    if (five[0] > RULE_BROKEN || (five[0] == RULE_BROKEN && five[1] < 7)) {
        return;
    }
    oracle_read(file, length, &run);
    if (five[0] == RULE_BROKEN) {
        see_broken(&run, five[1], five + 2, seen);
    } else {
        see_accepted(&run, seen);
    }
    add(apart, seen);
}

/* ---- carried files ---- */

/* Whether the job was recorded with another end. */
static bool ended_otherwise(const Run *old, const Record *job) {
    for (uint32_t k = 0; k < old->record_count; k++) {
        const Record *record = &old->records[k];
        if (record->task == job->task && record->job == job->job) {
            return record->end != job->end;
        }
    }
    return false;
}

/* Whether another job that is due with k gets ready with it, by an end too. */
static bool is_tied(const Run *run, uint32_t k) {
    for (uint32_t x = 0; x < k; x++) {
        bool at_once = is_kept(run, x) && end_before(run, x) == end_before(run, k);
        if (at_once && due(run, &run->records[x]) == due(run, &run->records[k])) {
            return true;
        }
    }
    return false;
}

/* Of a job that starts from H on and is kept by the one before it until then, or longer. */
static void see_carried(const Run *old, const Run *run, uint32_t k, bool *seen) {
    const Record *before = &run->records[k - 1];
    bool kept = before->start < old->horizon, at_end = follows(run, k);
    bool after = before->end > old->horizon;
    seen[CARRIED_IDLES] |= after && some_core_idles(run, before->end - 1);
    seen[CARRIED_OVERTAKES] |= is_overtaken(run, k, old->horizon, false);
    seen[CARRIED_FOLLOWS_KEPT] |= at_end && kept && after;
    seen[CARRIED_FOLLOWS_KEPT_TO_H] |= at_end && kept && after && run->horizon == old->horizon;
    seen[CARRIED_FOLLOWS_AT_H] |= at_end && before->end == old->horizon;
    seen[CARRIED_FOLLOWS_NEW] |= at_end && !kept;
    seen[CARRIED_FOLLOWS_OTHERWISE] |= at_end && !kept && ended_otherwise(old, before);
    seen[CARRIED_TIES] |= after && is_tied(run, k);
}

void meet_carried(Apart *apart, const uint8_t *file, size_t length, const uint8_t *output, size_t output_length) {
    bool seen[PARTINGS] = {false};
    Run old, run;
    oracle_read(file, length, &old);
    oracle_read(output, output_length, &run);
    for (uint32_t k = 0; k < run.record_count; k++) {
        if (is_kept(&run, k) && run.records[k].start >= old.horizon) {
            see_carried(&old, &run, k, seen);
        }
    }
    add(apart, seen);
}

/* ---- */

uint64_t tell_apart(const Apart *apart) {
    return tell_lines("jobs that wait for the one before them", apart->met, names, PARTINGS);
}
