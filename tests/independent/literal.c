#include "literal.h"

enum { FEW_RECORDS = 60, SMALL_TIME = 2000, CORES = 1, HORIZON = 2, TASK_COUNT = 3, TASKS = 4 };
enum { PERIOD, LEAST, GREATEST, OFFSET };
enum { TASK, JOB, RELEASE, START, END, CORE };

static uint32_t number(const uint8_t *file, size_t index) {
    const uint8_t *b = file + 4 * index;
    return b[0] + 256u * b[1] + 65536u * b[2] + 16777216u * b[3];
}

static uint32_t of_task(const uint8_t *file, uint32_t task, size_t field) {
    return number(file, TASKS + 5 * (size_t)task + field);
}

static size_t count_index(const uint8_t *file) {
    return TASKS + 5 * (size_t)number(file, TASK_COUNT);
}

static uint32_t record_count(const uint8_t *file) {
    return number(file, count_index(file));
}

static uint32_t of_record(const uint8_t *file, uint32_t k, size_t field) {
    return number(file, count_index(file) + 1 + 6 * (size_t)k + field);
}

bool literal_applies(const uint8_t *file) {
    if (record_count(file) > FEW_RECORDS || number(file, HORIZON) > SMALL_TIME) {
        return false;
    }
    for (uint32_t k = 0; k < record_count(file); k++) {
        if (of_record(file, k, START) > SMALL_TIME || of_record(file, k, END) > SMALL_TIME) {
            return false;
        }
    }
    return true;
}

static uint64_t due(const uint8_t *file, uint32_t k) {
    uint32_t task = of_record(file, k, TASK);
    return ((uint64_t)of_record(file, k, JOB) + 1) * of_task(file, task, PERIOD) + of_task(file, task, OFFSET);
}

/* ---- rules 7 to 9 ---- */

/* Whether x is the preceding job of the task of k. */
static bool precedes(const uint8_t *file, uint32_t x, uint32_t k) {
    return of_record(file, x, TASK) == of_record(file, k, TASK) && (uint64_t)of_record(file, x, JOB) + 1 == of_record(file, k, JOB);
}

/* Whether k is released by the instant, and the preceding job of its task has ended by then, if there is one. */
static bool ready(const uint8_t *file, uint32_t k, uint32_t instant) {
    if (of_record(file, k, RELEASE) > instant) {
        return false;
    }
    for (uint32_t x = 0; x < record_count(file); x++) {
        if (precedes(file, x, k) && of_record(file, x, END) > instant) {
            return false;
        }
    }
    return true;
}

static bool busy(const uint8_t *file, uint32_t core, uint32_t instant) {
    for (uint32_t k = 0; k < record_count(file); k++) {
        if (of_record(file, k, CORE) == core && of_record(file, k, START) <= instant && instant < of_record(file, k, END)) {
            return true;
        }
    }
    return false;
}

/* The least idle core at the instant, or 0. */
static uint32_t idle_core(const uint8_t *file, uint32_t instant) {
    for (uint32_t core = 1; core <= number(file, CORES); core++) {
        if (!busy(file, core, instant)) {
            return core;
        }
    }
    return 0;
}

/* a starts strictly before b, its deadline is the later one, and b is ready when it starts. */
static bool literal_order(const uint8_t *file, uint32_t place[3]) {
    for (uint32_t a = 0; a < record_count(file); a++) {
        for (uint32_t b = 0; b < record_count(file); b++) {
            uint32_t start = of_record(file, a, START);
            if (start < of_record(file, b, START) && due(file, a) > due(file, b) && ready(file, b, start)) {
                place[0] = a;
                place[1] = b;
                return true;
            }
        }
    }
    return false;
}

static bool literal_idling(const uint8_t *file, uint32_t place[3]) {
    for (uint32_t a = 0; a < record_count(file); a++) {
        for (uint32_t t = of_record(file, a, RELEASE); t < of_record(file, a, START); t++) {
            uint32_t core = ready(file, a, t) ? idle_core(file, t) : 0;
            if (core != 0) {
                place[0] = a;
                place[1] = t;
                place[2] = core;
                return true;
            }
        }
    }
    return false;
}

static bool literal_beside(const uint8_t *file, uint32_t place[3]) {
    for (uint32_t k = 0; k < record_count(file); k++) {
        for (uint32_t x = 0; x < record_count(file); x++) {
            if (precedes(file, x, k) && of_record(file, k, START) < of_record(file, x, END)) {
                place[0] = k;
                return true;
            }
        }
    }
    return false;
}

uint32_t literal_broken(const uint8_t *file, uint32_t place[3]) {
    place[0] = place[1] = place[2] = 0;
    return literal_order(file, place) ? 7 : literal_idling(file, place) ? 8 : literal_beside(file, place) ? 9 : 0;
}

/* ---- carrying: the output is judged as it stands, nothing is scheduled anew ---- */

/* The old record of the same job, or the old record count. */
static uint32_t old_of(const uint8_t *file, const uint8_t *output, uint32_t k) {
    uint32_t old = 0;
    while (old < record_count(file) &&
           (of_record(file, old, TASK) != of_record(output, k, TASK) || of_record(file, old, JOB) != of_record(output, k, JOB))) {
        old++;
    }
    return old;
}

static bool same_record(const uint8_t *file, uint32_t old, const uint8_t *output, uint32_t k) {
    for (size_t field = TASK; field <= CORE; field++) {
        if (of_record(file, old, field) != of_record(output, k, field)) {
            return false;
        }
    }
    return true;
}

static bool kept_as_it_was(const uint8_t *file, const uint8_t *output, uint32_t k) {
    uint32_t old = old_of(file, output, k);
    return old < record_count(file) && of_record(file, old, START) < number(file, HORIZON) && same_record(file, old, output, k);
}

/* Released as before, or if it is new without jitter; begun at H or later; run for the greatest time. */
static bool begun_from_horizon(const uint8_t *file, const uint8_t *output, uint32_t k) {
    uint32_t old = old_of(file, output, k), task = of_record(output, k, TASK), start = of_record(output, k, START);
    uint32_t release = of_record(output, k, JOB) * of_task(file, task, PERIOD) + of_task(file, task, OFFSET);
    if (old < record_count(file)) {
        release = of_record(file, old, RELEASE);
    }
    return of_record(output, k, RELEASE) == release && start >= number(file, HORIZON) &&
           of_record(output, k, END) == start + of_task(file, task, GREATEST);
}

/* Whether x is chosen before y among jobs that are ready together: earlier deadline, then lower task, then lower job. */
static bool chosen_before(const uint8_t *output, uint32_t x, uint32_t y) {
    if (due(output, x) != due(output, y)) {
        return due(output, x) < due(output, y);
    }
    return x < y; /* records stand in order of task, then job */
}

/* A core is free for the record k at its start if it is idle just then, but for records that are chosen at this instant later. */
static bool free_for(const uint8_t *output, uint32_t core, uint32_t k) {
    uint32_t instant = of_record(output, k, START);
    for (uint32_t x = 0; x < record_count(output); x++) {
        uint32_t start = of_record(output, x, START), end = of_record(output, x, END);
        bool runs = of_record(output, x, CORE) == core && start <= instant && instant < end;
        bool later = start == instant && !chosen_before(output, x, k);
        if (runs && !later) {
            return false;
        }
    }
    return true;
}

static bool on_lowest_free_core(const uint8_t *output, uint32_t k) {
    uint32_t core = 1;
    while (core <= number(output, CORES) && !free_for(output, core, k)) {
        core++;
    }
    return of_record(output, k, CORE) == core;
}

/* No job that would be chosen before k waits while k starts. */
static bool overtakes_none(const uint8_t *output, uint32_t k) {
    uint32_t instant = of_record(output, k, START);
    for (uint32_t x = 0; x < record_count(output); x++) {
        bool waits = ready(output, x, instant) && instant < of_record(output, x, START);
        if (waits && chosen_before(output, x, k)) {
            return false;
        }
    }
    return true;
}

/* From the old horizon on no core is idle while a job is ready and has not begun. */
static bool no_core_idles(const uint8_t *file, const uint8_t *output, uint32_t k) {
    for (uint32_t t = number(file, HORIZON); t < of_record(output, k, START); t++) {
        if (ready(output, k, t) && idle_core(output, t) != 0) {
            return false;
        }
    }
    return true;
}

/* The setting but for the horizon, and the tasks, are those of the file; the records are the jobs before the new horizon. */
static bool same_front(const uint8_t *file, const uint8_t *output) {
    for (size_t i = 0; i < count_index(file); i++) {
        if (i != HORIZON && number(file, i) != number(output, i)) {
            return false;
        }
    }
    uint32_t k = 0;
    for (uint32_t task = 0; task < number(file, TASK_COUNT); task++) {
        uint64_t t = of_task(file, task, OFFSET);
        for (uint32_t job = 0; t < number(output, HORIZON); job++, k++, t += of_task(file, task, PERIOD)) {
            if (k >= record_count(output) || of_record(output, k, TASK) != task || of_record(output, k, JOB) != job) {
                return false;
            }
        }
    }
    return k == record_count(output);
}

/* Every record that starts before the old horizon is in the output as it was. */
static bool all_kept(const uint8_t *file, const uint8_t *output) {
    uint32_t to_keep = 0, kept = 0;
    for (uint32_t k = 0; k < record_count(file); k++) {
        to_keep += of_record(file, k, START) < number(file, HORIZON);
    }
    for (uint32_t k = 0; k < record_count(output); k++) {
        kept += kept_as_it_was(file, output, k);
    }
    return kept == to_keep;
}

bool literal_carried(const uint8_t *file, const uint8_t *output) {
    bool right = same_front(file, output) && all_kept(file, output);
    for (uint32_t k = 0; right && k < record_count(output); k++) {
        right = kept_as_it_was(file, output, k) ||
                (begun_from_horizon(file, output, k) && ready(output, k, of_record(output, k, START)) &&
                 on_lowest_free_core(output, k) && overtakes_none(output, k) && no_core_idles(file, output, k));
    }
    return right;
}
