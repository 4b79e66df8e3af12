#include "tables.h"

#include <string.h>

#include "faults.h"
#include "lists.h"
#include "server.h"

enum { AT_TASK_COUNT = 12, AT_TASKS = 16, TASK_BYTES = 20, RECORD_BYTES = 24 };

/* ---- the file ---- */

static void put(TableCase *made, uint32_t number) {
    for (uint32_t i = 0; i < 4; i++) {
        made->file[made->length] = (uint8_t)(number >> (8 * i));
        made->length++;
    }
}

static uint32_t get(const TableCase *made, size_t at) {
    const uint8_t *b = made->file + at;
    return (uint32_t)b[0] | (uint32_t)b[1] << 8 | (uint32_t)b[2] << 16 | (uint32_t)b[3] << 24;
}

static void put_front(TableCase *made, Chance *chance) {
    static const Shape shapes[] = {TINY, SMALL, WIDE};
    Run run;
    draw_set(&run, shapes[below(chance, 3)], chance);
    made->length = 0;
    put(made, 2);
    put(made, run.cores);
    put(made, run.horizon);
    put(made, run.task_count);
    for (uint32_t i = 0; i < run.task_count; i++) {
        const Task *t = &run.tasks[i];
        const uint32_t numbers[] = {t->period, t->least, t->greatest, t->offset, t->jitter};
        for (uint32_t n = 0; n < 5; n++) {
            put(made, numbers[n]);
        }
    }
}

static void put_records(TableCase *made, List *list) {
    put(made, list->count);
    for (uint32_t k = 0; k < list->count; k++) {
        for (uint32_t i = 0; i < RECORD_NUMBERS; i++) {
            put(made, *number_of(&list->records[k], i));
        }
    }
}

/* Where the record count stands, if the layout lets it be read and its records too; else 0. */
static size_t count_at(const TableCase *made) {
    if (made->length < AT_TASKS || get(made, AT_TASK_COUNT) > MOST_TASKS) {
        return 0;
    }
    size_t at = AT_TASKS + (size_t)get(made, AT_TASK_COUNT) * TASK_BYTES;
    bool counted = made->length >= at + 4 && get(made, at) <= MOST_JOBS;
    return counted && made->length >= at + 4 + (size_t)get(made, at) * RECORD_BYTES ? at : 0;
}

static void records_of(const TableCase *made, List *list) {
    size_t at = count_at(made);
    list->count = at == 0 ? 0 : get(made, at);
    for (uint32_t k = 0; k < list->count; k++) {
        for (uint32_t i = 0; i < RECORD_NUMBERS; i++) {
            *number_of(&list->records[k], i) = get(made, at + 4 + RECORD_BYTES * (size_t)k + 4 * (size_t)i);
        }
    }
}

/* Lists of which the records at k and after it are or are not in order. */
static void own_list(Origin origin, List *list, Chance *chance) {
    uint32_t count = between(chance, 2, one_in(chance, 4) ? 40 : 8), k = below(chance, count - 1);
    rising_list(list, origin == WITHOUT_RECORD ? 0 : origin == FULL_FILE ? MOST_JOBS : count, chance);
    Record *one = &list->records[k], *next = &list->records[k + 1], was = *one;
    switch (origin) {
    case EQUAL_STARTS:
        for (uint32_t i = 0; i < list->count; i++) {
            list->records[i].start = below(chance, 2);
        }
        break;
    case EQUAL_JOBS: next->task = one->task, next->job = one->job; break;
    case EXCHANGED: *one = *next, *next = was; break;
    case FALLING_TASKS: next->task = one->task - 1, next->job = one->job + 1; break;
    case LONGEST_TABLE: longest_list(list, chance); break;
    default: break;
    }
}

static const char *const names_of_origins[ORIGINS] = {
    [AS_IN_CASES] = "as in cases",   [WITHOUT_RECORD] = "no record", [RISING] = "rising",
    [EQUAL_STARTS] = "equal starts", [EQUAL_JOBS] = "equal jobs",    [EXCHANGED] = "exchanged",
    [FALLING_TASKS] = "falling",     [FULL_FILE] = "full",           [LONGEST_TABLE] = "longest table",
};

const char *origin_name(Origin origin) {
    return names_of_origins[origin];
}

static Origin draw_origin(Chance *chance) {
    uint32_t option = below(chance, 100);
    if (option == 0) {
        return one_in(chance, 2) ? FULL_FILE : LONGEST_TABLE;
    }
    return option < 70 ? AS_IN_CASES : (Origin)between(chance, WITHOUT_RECORD, FALLING_TASKS);
}

static void make_file(uint64_t seed, uint64_t number, TableCase *made, Chance *chance) {
    static Case from;
    static List list;
    if (made->origin == AS_IN_CASES) {
        make_case(seed, number, &from);
        memcpy(made->file, from.file, from.length);
        made->length = from.length;
        return;
    }
    own_list(made->origin, &list, chance);
    put_front(made, chance);
    put_records(made, &list);
}

/* ---- the table ---- */

const char *border_name(uint32_t border) {
    return kinds[border].name;
}

/* One table in four is not spoiled. Those of 512 lines and more cost most: one in so many is taken. */
static uint32_t draw_border(Chance *chance) {
    enum { SELDOM = 8 };
    uint32_t border;
    bool whole = one_in(chance, 4);
    do {
        border = below(chance, BORDERS);
    } while ((whole && kinds[border].spoil != nothing) || (kinds[border].source >= FULL_511 && !one_in(chance, SELDOM)));
    return border;
}

/* The list has the records of the file. */
static void make_lines(Source source, List *list, Chance *chance) {
    static const uint32_t full[] = {511, 512, 513, 514};
    if (source >= FULL_511) {
        full_list(list, full[source - FULL_511], chance);
    } else if (source == AT_BORDERS) {
        border_list(list, chance);
    } else if (source == ALIKE) {
        alike_list(list, chance);
    } else {
        keep_jobs_once(list);
        if (list->count == 0 || list->count == MOST_JOBS || one_in(chance, 8)) {
            rising_list(list, between(chance, 1, 12), chance);
        }
    }
    shuffle(list, chance);
    if (source == SORTED) {
        sort_by_start(list);
    }
    if (source == SOME || source == NONE) {
        list->count = source == NONE ? 0 : below(chance, list->count + 1);
    }
}

/* ---- what is lent ---- */

static size_t draw_room(size_t exact, Chance *chance) {
    switch (below(chance, 10)) {
    case 0: return exact - 1;
    case 1: return below(chance, exact);
    case 2:
    case 3: return exact + between(chance, 1, 64);
    case 4: return exact + between(chance, 1, 2000);
    default: return exact;
    }
}

static size_t draw_answer_length(Chance *chance) {
    uint32_t option = below(chance, 16);
    if (option == 0) {
        return one_in(chance, 2) ? 19 : below(chance, 20);
    }
    return option < 9 ? 20 : option < 13 ? 21 : between(chance, 20, TABLE_ANSWER_BYTES);
}

/* The number of lines is told by the table only where it is not refused. */
static void draw_slices(TableCase *made, const List *of_file, Chance *chance) {
    static uint8_t exported[MOST_TABLE_BYTES];
    size_t front = count_at(made);
    made->imported_bytes = front == 0 || made->expected.refusal != 0 ? 0 : front + 4 + RECORD_BYTES * (size_t)(lines_of(made) - 1);
    made->exported_bytes = front == 0 ? 0 : put_table(exported, of_file);
    made->import_room = draw_room(made->imported_bytes == 0 ? made->length + 1 : made->imported_bytes, chance);
    made->export_room = draw_room(made->exported_bytes == 0 ? made->length + 1 : made->exported_bytes, chance);
    made->import_answer_length = draw_answer_length(chance);
    made->export_answer_length = draw_answer_length(chance);
}

/* ---- cases ---- */

/* Some blocks of cases cut one small table at every length. */
enum { BLOCK = 256, CUT_BLOCKS = 24 };

static uint32_t border_of(void (*spoil)(TableCase *, Chance *)) {
    uint32_t border = 0;
    while (kinds[border].spoil != spoil) {
        border++;
    }
    return border;
}

static void make_table(uint64_t seed, uint64_t number, List *lines, TableCase *made, Chance *chance) {
    uint64_t block = number / BLOCK;
    bool cut = block % CUT_BLOCKS == 2;
    Chance of_block = chance_of(seed, UINT64_C(1) << 42 | block);
    made->border = cut ? border_of(cut_anywhere) : draw_border(chance);
    if (cut) {
        rising_list(lines, 6, &of_block);
    } else {
        make_lines(kinds[made->border].source, lines, chance);
    }
    made->table_length = put_table(made->table, lines);
    made->expected = lines->count > MOST_JOBS ? (Expected){7, MOST_JOBS + 2} : (Expected){0, 0};
    if (cut) {
        cut_to(made, number % BLOCK);
    } else {
        kinds[made->border].spoil(made, chance);
    }
}

void make_table_case(uint64_t seed, uint64_t number, TableCase *made) {
    static List of_file, lines;
    Chance chance = chance_of(seed, UINT64_C(1) << 41 | number);
    made->origin = draw_origin(&chance);
    make_file(seed, number, made, &chance);
    records_of(made, &of_file);
    lines = of_file;
    make_table(seed, number, &lines, made, &chance);
    draw_slices(made, &of_file, &chance);
}

void make_right_table(uint64_t seed, uint64_t number, TableCase *made) {
    static List list;
    Chance chance = chance_of(seed, UINT64_C(1) << 43 | number);
    made->origin = RISING;
    made->border = border_of(nothing);
    made->expected = (Expected){0, 0};
    make_file(seed, number, made, &chance);
    records_of(made, &list);
    made->exported_bytes = put_table(made->table, &list);
    shuffle(&list, &chance);
    made->table_length = put_table(made->table, &list);
    made->imported_bytes = made->length;
    made->import_room = made->imported_bytes;
    made->export_room = made->exported_bytes;
    made->import_answer_length = made->export_answer_length = 20;
}
