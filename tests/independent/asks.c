#include "asks.h"

#include <stdbool.h>

#include "filed.h"
#include "server.h"

enum { LONG_ONCE_IN = 250, AS_IN_CASES_ONCE_IN = 5, TICKS_OF_A_JOB = 2, NUMBER_BYTES = 4 };

const char *which_name(uint32_t which) {
    static const char *const names[WHICHS] = {
        [A_RECORD] = "a record",        [THE_COUNT] = "the record count", [AFTER_THE_COUNT] = "one more",
        [GREATEST_NUMBER] = "2^32 - 1", [WITH_A_HIGH_BIT] = "a high bit", [ANY_NUMBER] = "any",
    };
    return names[which];
}

const char *room_name(uint32_t room) {
    static const char *const names[ROOMS] = {
        [NO_BYTE] = "no byte", [ONE_SHORT] = "one byte short",    [FEWER] = "fewer",
        [EXACTLY] = "exact",   [SEVEN_MORE] = "seven bytes more", [MANY_MORE] = "many more",
    };
    return names[room];
}

/* ---- runs ---- */

/* As many tasks as their period has ticks, so many jobs in each period, and each takes two ticks: the run falls ever farther
   behind. They are released one after the other, or all at once. */
static void behind(Run *run, uint32_t cores, uint32_t tasks, bool at_once) {
    *run = (Run){.cores = cores, .horizon = MOST_JOBS, .task_count = tasks};
    for (uint32_t i = 0; i < tasks; i++) {
        run->tasks[i] = (Task){tasks, TICKS_OF_A_JOB, TICKS_OF_A_JOB, at_once ? 0 : i, 0};
    }
}

/* Sixteen cores that are asked for twice what they can do. */
static void crowd(Run *run, Chance *chance) {
    enum { EACH = MOST_JOBS / MOST_TASKS };
    uint32_t period = between(chance, 4, 40);
    *run = (Run){.cores = MOST_CORES, .horizon = EACH * period, .task_count = MOST_TASKS};
    for (uint32_t i = 0; i < MOST_TASKS; i++) {
        uint32_t greatest = between(chance, period / 2 + 1, 3 * period / 2);
        run->tasks[i] = (Task){period, between(chance, 1, greatest), greatest, below(chance, period), below(chance, period)};
    }
}

/* The most records: in one chain through preceding jobs, through the one core, or through both; or in many chains. */
static void long_chains(Case *made, uint32_t kind, Chance *chance) {
    static Run run;
    switch (kind) {
    case 0: behind(&run, between(chance, 2, MOST_CORES), 1, false); break;
    case 1: behind(&run, 1, (uint32_t)2 << below(chance, 5), false); break;
    case 2: behind(&run, 1, (uint32_t)2 << below(chance, 5), true); break;
    default: crowd(&run, chance); break;
    }
    serve(&run, NO_FAULT, chance);
    write_file(&run, made);
}

/* Most runs are permitted ones, since the others have no chain. */
Chance make_asked_run(uint64_t seed, uint64_t number, Case *made) {
    enum { LONG_KINDS = 4, OF_ASKS = 41, APART = 1 << 20 };
    Chance chance = chance_of(seed, UINT64_C(1) << OF_ASKS | number);
    if (number % LONG_ONCE_IN == 0) {
        long_chains(made, (uint32_t)(number / LONG_ONCE_IN % LONG_KINDS), &chance);
        return chance;
    }
    bool any = one_in(&chance, AS_IN_CASES_ONCE_IN);
    uint64_t from = chance_next(&chance) >> 16;
    do {
        make_case(seed, from, made);
        from += APART; /* so that two runs from one block of cases are not alike */
    } while (!any && !made->permitted);
    return chance;
}

/* ---- questions ---- */

static size_t draw_answer_length(Chance *chance) {
    uint32_t option = below(chance, 16);
    if (option == 0) {
        return one_in(chance, 3) ? 19 : below(chance, 20);
    }
    return option < 12 ? 20 : between(chance, 21, MOST_ANSWER_BYTES);
}

static Ask any_ask(uint32_t record, Which which, Chance *chance) {
    static const Room rooms[] = {NO_BYTE, ONE_SHORT, FEWER, SEVEN_MORE, MANY_MORE, EXACTLY, EXACTLY, EXACTLY};
    Ask ask = {.which = which, .record = record, .room = rooms[below(chance, sizeof rooms / sizeof *rooms)]};
    ask.answer_length = draw_answer_length(chance);
    return ask;
}

Ask ask_about(uint32_t record, Chance *chance) {
    return any_ask(record, A_RECORD, chance);
}

Ask ask_about_none(uint32_t records, Chance *chance) {
    enum { LEAST_HIGH_BIT = 10, GREATEST_BIT = 31 };
    Which which = (Which)between(chance, THE_COUNT, ANY_NUMBER);
    uint32_t record = (uint32_t)chance_next(chance);
    switch (which) {
    case THE_COUNT: record = records; break;
    case AFTER_THE_COUNT: record = records + 1; break;
    case GREATEST_NUMBER: record = UINT32_MAX; break;
    case WITH_A_HIGH_BIT: record = below(chance, records + 1) | (uint32_t)1 << between(chance, LEAST_HIGH_BIT, GREATEST_BIT); break;
    default: record = record < records ? records : record; break;
    }
    return any_ask(record, which, chance);
}

size_t room_for(Room room, uint32_t numbers, Chance *chance) {
    enum { MOST_MORE = 3000 };
    size_t exact = NUMBER_BYTES * (size_t)numbers;
    switch (room) {
    case NO_BYTE: return 0;
    case ONE_SHORT: return exact > 0 ? exact - 1 : 0;
    case FEWER: return exact > 0 ? below(chance, exact) : 0;
    case EXACTLY: return exact;
    case SEVEN_MORE: return exact + 7;
    default: return exact + below(chance, MOST_MORE);
    }
}
