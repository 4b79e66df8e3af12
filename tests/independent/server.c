#include "server.h"

/* ---- the model in numbers ---- */

uint64_t nominal_release(const Run *run, uint32_t task, uint64_t job) {
    return job * run->tasks[task].period + run->tasks[task].offset;
}

uint64_t deadline(const Run *run, const Record *record) {
    return nominal_release(run, record->task, (uint64_t)record->job + 1);
}

uint64_t jobs_before(const Run *run, uint32_t horizon) {
    uint64_t jobs = 0;
    for (uint32_t i = 0; i < run->task_count; i++) {
        const Task *task = &run->tasks[i];
        if (task->offset < horizon) {
            jobs += ((uint64_t)horizon - task->offset + task->period - 1) / task->period;
        }
    }
    return jobs;
}

uint32_t greatest_horizon(const Run *run, uint32_t most_jobs) {
    uint32_t low = 1, high = MOST_TICKS;
    while (low < high) {
        uint32_t middle = low + (high - low + 1) / 2;
        if (jobs_before(run, middle) <= most_jobs) {
            low = middle;
        } else {
            high = middle - 1;
        }
    }
    return low;
}

/* ---- a set of tasks ---- */

typedef struct {
    uint32_t least_tasks, most_tasks, most_cores, least_period, most_period, most_jobs;
} Limits;

static const Limits limits_of[SHAPES] = {
    [TINY] = {1, 3, 2, 1, 12, 7},          [SMALL] = {1, 5, 4, 2, 40, 20},
    [MIDDLE] = {2, 10, 8, 3, 200, 60},     [WIDE] = {12, 32, 16, 5, 1000, 100},
    [LONG] = {1, 8, 4, 1000, 1000000, 40}, [GREATEST] = {1, 32, 16, 1, 1000000, MOST_JOBS},
};

/* Periods are often small multiples of one unit, since equal deadlines are the interesting ones. */
static uint32_t draw_period(const Limits *limits, uint32_t unit, Chance *chance) {
    uint32_t multiple = unit * between(chance, 1, 4);
    bool fits = limits->least_period <= multiple && multiple <= limits->most_period;
    return fits && !one_in(chance, 3) ? multiple : between(chance, limits->least_period, limits->most_period);
}

static uint32_t draw_jitter(uint32_t period, Chance *chance) {
    switch (below(chance, 6)) {
    case 0:
    case 1: return 0;
    case 2: return period - 1;
    case 3: return between(chance, 0, period - 1);
    default: return between(chance, 0, (period - 1) / 3 + (period > 3));
    }
}

/* Load is in eighths of what the cores could do if every job ran for the greatest time. */
static void draw_lengths(Task *task, const Run *run, uint32_t load, Chance *chance) {
    uint64_t most = (uint64_t)task->period * run->cores * load / 8 / run->task_count + 1;
    task->greatest = between(chance, 1, most > MOST_TICKS ? MOST_TICKS : (uint32_t)most);
    task->least = one_in(chance, 4) ? task->greatest : between(chance, 1, task->greatest);
}

static void draw_horizon(Run *run, const Limits *limits, Chance *chance) {
    uint32_t greatest = greatest_horizon(run, limits->most_jobs);
    uint32_t task = below(chance, run->task_count);
    uint64_t nominal = nominal_release(run, task, below(chance, 8));
    switch (below(chance, 8)) {
    case 0: run->horizon = greatest; break;
    case 1: run->horizon = nominal < greatest ? (uint32_t)nominal + 1 : greatest; break;
    case 2: run->horizon = nominal < greatest && nominal > 0 ? (uint32_t)nominal : greatest; break;
    case 3: run->horizon = between(chance, 1, greatest / 4); break;
    case 4: run->horizon = between(chance, 1, run->tasks[task].period); break;
    default: run->horizon = between(chance, 1, greatest); break;
    }
    if (run->horizon > greatest) {
        run->horizon = greatest;
    }
}

static void draw_tasks(Run *run, const Limits *limits, Chance *chance) {
    static const uint32_t loads[] = {2, 4, 6, 8, 8, 12, 24, 64};
    uint32_t load = loads[below(chance, 8)], offsets = below(chance, 3);
    uint32_t unit = between(chance, 1, limits->most_period / 4);
    for (uint32_t i = 0; i < run->task_count; i++) {
        Task *task = &run->tasks[i];
        task->period = draw_period(limits, unit, chance);
        task->jitter = draw_jitter(task->period, chance);
        task->offset = offsets == 0 ? 0 : between(chance, 0, offsets == 1 ? task->period - 1 : limits->most_period);
        draw_lengths(task, run, load, chance);
    }
}

/* Exactly as many jobs as are allowed: each task has the same number of them. */
static void draw_full_set(Run *run, Chance *chance) {
    uint32_t each = MOST_JOBS / run->task_count;
    uint32_t period = between(chance, 1, one_in(chance, 2) ? 50 : MOST_TICKS / each);
    uint32_t most = between(chance, 1, one_in(chance, 2) ? period : MOST_TICKS);
    for (uint32_t i = 0; i < run->task_count; i++) {
        Task *task = &run->tasks[i];
        task->period = period;
        task->jitter = draw_jitter(period, chance);
        task->offset = between(chance, 0, period - 1);
        task->greatest = between(chance, most / 2 + 1, most);
        task->least = between(chance, 1, task->greatest);
    }
    run->horizon = each * period;
}

void draw_set(Run *run, Shape shape, Chance *chance) {
    const Limits *limits = &limits_of[shape];
    run->task_count = between(chance, limits->least_tasks, limits->most_tasks);
    run->cores = one_in(chance, 3) ? 1 : between(chance, 1, limits->most_cores);
    if (shape == GREATEST) {
        run->task_count = one_in(chance, 2) ? MOST_TASKS : 1u << below(chance, 6);
        run->cores = one_in(chance, 2) ? MOST_CORES : run->cores;
    }
    if (shape == GREATEST && !one_in(chance, 4)) {
        draw_full_set(run, chance);
    } else {
        draw_tasks(run, limits, chance);
        draw_horizon(run, limits, chance);
    }
}

static void overrun(Task *task, Chance *chance) {
    uint64_t most = (uint64_t)task->period * between(chance, 1, 3) + 1;
    task->greatest = between(chance, task->period, most > MOST_TICKS ? MOST_TICKS : (uint32_t)most);
    task->least = between(chance, one_in(chance, 2) ? 1 : task->greatest / 2 + 1, task->greatest);
}

void make_overrun(Run *run, Chance *chance) {
    enum { FEW_JOBS = 60 };
    uint32_t task = below(chance, run->task_count);
    run->cores = run->cores > 1 ? run->cores : 2;
    for (uint32_t i = 0; i < run->task_count; i++) {
        if (i == task || one_in(chance, 3)) {
            overrun(&run->tasks[i], chance);
        }
    }
    /* one that has several jobs */
    uint64_t horizon = nominal_release(run, task, between(chance, 1, 5)) + 1;
    if (run->horizon < horizon && horizon <= MOST_TICKS && jobs_before(run, (uint32_t)horizon) <= FEW_JOBS) {
        run->horizon = (uint32_t)horizon;
    }
}

/* ---- the server ---- */

typedef struct {
    Run *run;
    Chance *chance;
    Fault fault;
    uint32_t rarity, left;
    bool begun[MOST_JOBS];
    uint32_t free_from[MOST_CORES + 1];
} Server;

static void release_jobs(Run *run, Chance *chance) {
    run->record_count = 0;
    for (uint32_t i = 0; i < run->task_count; i++) {
        for (uint32_t j = 0; nominal_release(run, i, j) < run->horizon; j++) {
            uint32_t nominal = (uint32_t)nominal_release(run, i, j), jitter = run->tasks[i].jitter;
            uint32_t delay = one_in(chance, 3) ? (one_in(chance, 2) ? 0 : jitter) : between(chance, 0, jitter);
            run->records[run->record_count] = (Record){.task = i, .job = j, .release = nominal + delay};
            run->record_count++;
        }
    }
}

static bool slips(Server *server, Fault fault) {
    return server->fault == fault && one_in(server->chance, server->rarity);
}

static uint32_t any_free_core(Server *server, uint32_t instant) {
    uint32_t chosen = 0, seen = 0;
    for (uint32_t core = 1; core <= server->run->cores; core++) {
        if (server->free_from[core] <= instant) {
            seen++;
            chosen = one_in(server->chance, seen) ? core : chosen;
        }
    }
    return chosen;
}

/* When the job is ready, as far as the server can know: the end of the one before it is known once that one has begun. */
static uint32_t ready_from(const Server *server, uint32_t k) {
    const Record *job = &server->run->records[k];
    if (job->job == 0) {
        return job->release;
    }
    const Record *before = &server->run->records[k - 1];
    uint32_t over = server->begun[k - 1] ? before->end : UINT32_MAX;
    return over > job->release ? over : job->release;
}

/* How the server slips at an instant. */
typedef struct {
    bool blind, beside;
} Slip;

/* Of the jobs ready at the instant one that is due soonest, any of equal ones; any ready one if the server slips. */
static Record *due_soonest(Server *server, uint32_t instant, Slip slip) {
    Run *run = server->run;
    Record *chosen = NULL;
    bool any = slips(server, WRONG_JOB);
    uint32_t seen = 0;
    for (uint32_t k = 0; k < run->record_count; k++) {
        Record *job = &run->records[k];
        uint32_t from = slip.beside ? job->release : ready_from(server, k);
        if (server->begun[k] || from > instant || (slip.blind && from == instant)) {
            continue;
        }
        if (chosen != NULL && !any && deadline(run, job) > deadline(run, chosen)) {
            continue;
        }
        seen = chosen == NULL || any || deadline(run, job) == deadline(run, chosen) ? seen + 1 : 1;
        chosen = one_in(server->chance, seen) ? job : chosen;
    }
    return chosen;
}

static void start_job(Server *server, Record *job, uint32_t instant, uint32_t core) {
    const Task *task = &server->run->tasks[job->task];
    uint32_t length = between(server->chance, task->least, task->greatest);
    if (one_in(server->chance, 3)) {
        length = one_in(server->chance, 2) ? task->least : task->greatest;
    }
    job->start = instant;
    job->end = instant + length;
    job->core = core;
    server->begun[job - server->run->records] = true;
    server->left--;
    server->free_from[core] = job->end + (slips(server, SLOW_CORE) ? between(server->chance, 1, 3) : 0);
}

/* Whether a released job that is due sooner than this one waits for the one before it. */
static bool passes_by(const Server *server, const Record *job, uint32_t instant) {
    const Run *run = server->run;
    for (uint32_t k = 0; k < run->record_count; k++) {
        const Record *other = &run->records[k];
        bool waits = !server->begun[k] && other->release <= instant && ready_from(server, k) > instant;
        if (waits && deadline(run, other) < deadline(run, job)) {
            return true;
        }
    }
    return false;
}

/* Starts what it can at the instant. Says whether it slipped, so that it must look again at the next tick. */
static bool serve_instant(Server *server, uint32_t instant) {
    uint32_t core;
    Record *job;
    Slip slip = {.blind = slips(server, BLIND_TO_NEW)};
    slip.beside = slips(server, BESIDE_ITSELF);
    while ((core = any_free_core(server, instant)) != 0 && (job = due_soonest(server, instant, slip)) != NULL) {
        if (slips(server, LAZY) || (slips(server, WAITS_BEHIND) && passes_by(server, job, instant))) {
            return true;
        }
        start_job(server, job, instant, core);
    }
    return slip.blind;
}

static uint32_t sooner_after(uint32_t instant, uint32_t t, uint32_t next) {
    return t > instant && t < next ? t : next;
}

/* A core falls free, a job is released, or one that is released gets ready: a core may rest longer than its job ran. */
static uint32_t next_instant(const Server *server, uint32_t instant) {
    uint32_t next = UINT32_MAX;
    for (uint32_t core = 1; core <= server->run->cores; core++) {
        next = sooner_after(instant, server->free_from[core], next);
    }
    for (uint32_t k = 0; k < server->run->record_count; k++) {
        if (!server->begun[k]) {
            next = sooner_after(instant, server->run->records[k].release, next);
            next = sooner_after(instant, ready_from(server, k), next);
        }
    }
    return next == UINT32_MAX ? instant + 1 : next;
}

void serve(Run *run, Fault fault, Chance *chance) {
    Server server = {.run = run, .chance = chance, .fault = fault, .rarity = between(chance, 2, 12)};
    uint32_t instant = 0;
    release_jobs(run, chance);
    server.left = run->record_count;
    while (server.left > 0) {
        bool slipped = serve_instant(&server, instant);
        /* after a slip the next look is at the next tick, or only when something else happens */
        instant = slipped && !one_in(chance, 3) ? instant + 1 : next_instant(&server, instant);
    }
}
