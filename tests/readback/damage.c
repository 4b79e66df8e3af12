#include "damage.h"

#include <inttypes.h>
#include <octalmure.h>
#include <stdio.h>
#include <string.h>

static const uint32_t borders[] = {0,   1,   2,      3,       16,      17,         32,             33,
                                   512, 513, 999999, 1000000, 1000001, 0x7FFFFFFF, UINT32_MAX - 1, UINT32_MAX};

static uint32_t any_number(Chance *chance) {
    uint32_t any = (uint32_t)chance_next(chance);
    return one_in(chance, 3) ? borders[below(chance, sizeof borders / sizeof borders[0])] : any >> below(chance, 32);
}

/* ---- damage ---- */

static void damage_once(Case *made, Chance *chance) {
    size_t at = made->length > 0 ? below(chance, made->length) : 0;
    switch (below(chance, 6)) {
    case 0: made->length = at; break;
    case 1: made->length += made->length + 24 <= MOST_CASE_BYTES ? below(chance, 24) : 0; break;
    case 2: made->file[at] = (uint8_t)chance_next(chance); break;
    default:
        if (made->length >= 4) {
            octalmure_put_number(made->file + (at > made->length - 4 ? made->length - 4 : at) / 4 * 4, any_number(chance));
        }
        break;
    }
}

void damage(Case *made, Chance *chance) {
    for (uint32_t left = between(chance, 1, 4); left > 0; left--) {
        damage_once(made, chance);
    }
}

/* ---- wild ---- */

static uint8_t *put_wild_task(uint8_t *at, Chance *chance) {
    uint32_t period = 1 + any_number(chance) % OCTALMURE_MOST_TICKS, greatest = 1 + any_number(chance) % OCTALMURE_MOST_TICKS;
    struct octalmure_task task = {.period = period, .least = between(chance, 1, greatest), .greatest = greatest,
                                  .offset = any_number(chance) % (OCTALMURE_MOST_TICKS + 1), .jitter = below(chance, period)};
    return octalmure_put_task(at, task);
}

/* Any four bytes may stand in a record; often they are near a time that all the run's records are near. */
static uint8_t *put_wild_record(uint8_t *at, uint32_t near, uint32_t spread, Chance *chance) {
    uint32_t start = one_in(chance, 8) ? any_number(chance) : near + below(chance, (uint64_t)spread + 1);
    struct octalmure_record record = {.task = one_in(chance, 8) ? any_number(chance) : below(chance, 4),
                                      .job = one_in(chance, 8) ? any_number(chance) : below(chance, 9),
                                      .release = one_in(chance, 2) ? start : any_number(chance),
                                      .start = start,
                                      .end = one_in(chance, 8) ? any_number(chance) : start + below(chance, (uint64_t)spread + 2),
                                      .core = one_in(chance, 8) ? any_number(chance) : between(chance, 0, 4)};
    return octalmure_put_record(at, record);
}

/* H is so small that the tasks have not too many jobs, whatever they are. */
void make_wild(Case *made, Chance *chance) {
    uint32_t tasks = between(chance, 1, one_in(chance, 4) ? OCTALMURE_MOST_TASKS : 4);
    uint32_t records = below(chance, one_in(chance, 8) ? OCTALMURE_MOST_JOBS + 1 : 12);
    uint32_t near = one_in(chance, 2) ? below(chance, 40) : any_number(chance), spread = any_number(chance) >> below(chance, 32);
    struct octalmure_setting setting = {.cores = between(chance, 1, one_in(chance, 4) ? OCTALMURE_MOST_CORES : 3),
                                        .horizon = between(chance, 1, OCTALMURE_MOST_JOBS / tasks)};
    uint8_t *at = octalmure_put_number(octalmure_put_setting(made->file, setting), tasks);
    for (uint32_t i = 0; i < tasks; i++) {
        at = put_wild_task(at, chance);
    }
    at = octalmure_put_number(at, records);
    for (uint32_t k = 0; k < records; k++) {
        at = put_wild_record(at, near, spread, chance);
    }
    made->length = (size_t)(at - made->file);
    made->horizon = setting.horizon + below(chance, 8);
}

/* ---- noise ---- */

void make_noise(Case *made, Chance *chance) {
    made->length = below(chance, one_in(chance, 16) ? 14000 : 300);
    for (size_t i = 0; i < made->length; i++) {
        made->file[i] = (uint8_t)chance_next(chance);
    }
    if (made->length >= 4 && !one_in(chance, 4)) {
        octalmure_put_number(made->file, 2);
    }
    made->horizon = any_number(chance);
}

/* ---- tables ---- */

/* Lines of jobs that no run has follow, as far as there is room, until a record's line is one too many. */
static size_t one_line_too_many(uint8_t *table, size_t length, size_t room) {
    size_t lines = 0;
    for (size_t i = 0; i < length; i++) {
        lines += table[i] == '\n';
    }
    for (; lines < 1 + OCTALMURE_MOST_JOBS + 1; lines++) {
        char line[64];
        size_t more = (size_t)snprintf(line, sizeof line, "%" PRIu32 ",%zu,0,0,0,0\n", UINT32_MAX, lines);
        if (more > room - length) {
            return length;
        }
        memcpy(table + length, line, more);
        length += more;
    }
    return length;
}

/* All lines but the header a second time, as far as there is room. */
static size_t lines_twice(uint8_t *table, size_t length, size_t room) {
    const uint8_t *header_end = length > 0 ? memchr(table, '\n', length) : NULL;
    size_t lines = header_end != NULL ? (size_t)(table + length - header_end) - 1 : 0;
    size_t more = lines < room - length ? lines : room - length;
    memcpy(table + length, table + length - lines, more);
    return length + more;
}

size_t damage_table(uint8_t *table, size_t length, size_t room, Chance *chance) {
    static const char met[] = "0123456789,,\n\n\r \"+-;";
    uint32_t kind = below(chance, 16);
    if (kind == 0) {
        return one_line_too_many(table, length, room);
    }
    if (kind < 4) {
        return lines_twice(table, length, room);
    }
    if (kind < 8) {
        return length > 0 ? below(chance, length) : 0;
    }
    for (uint32_t left = between(chance, 1, 2); left > 0 && length > 0; left--) {
        table[below(chance, length)] = (uint8_t)met[below(chance, sizeof met - 1)];
    }
    return length;
}
