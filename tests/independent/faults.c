#include "faults.h"

#include <string.h>

#include "lists.h"

/* ---- the text of a table ---- */

typedef struct {
    size_t at, length;
} Part;

uint32_t lines_of(const TableCase *made) {
    uint32_t lines = 0;
    for (size_t i = 0; i < made->table_length; i++) {
        lines += made->table[i] == '\n';
    }
    return lines;
}

/* What closes line number n, which is there; lines are counted from 1. */
static size_t end_of_line(const TableCase *made, uint32_t number) {
    size_t at = 0;
    while (number > 1 || made->table[at] != '\n') {
        number -= made->table[at] == '\n';
        at++;
    }
    return at;
}

/* The line without its line feed; one past the last is an empty part. */
static Part line_of(const TableCase *made, uint32_t number) {
    size_t at = number == 1 ? 0 : end_of_line(made, number - 1) + 1;
    return (Part){at, number > lines_of(made) ? 0 : end_of_line(made, number) - at};
}

static Part any_field(const TableCase *made, uint32_t number, Chance *chance) {
    Part line = line_of(made, number);
    size_t commas = below(chance, RECORD_NUMBERS), end = line.at + line.length, at = line.at, to;
    for (; commas > 0; at++) {
        commas -= made->table[at] == ',';
    }
    for (to = at; to < end && made->table[to] != ','; to++) {
    }
    return (Part){at, to - at};
}

static void edit(TableCase *made, size_t at, size_t removed, const void *text, size_t length) {
    memmove(made->table + at + length, made->table + at + removed, made->table_length - at - removed);
    memcpy(made->table + at, text, length);
    made->table_length += length - removed;
}

static void insert(TableCase *made, size_t at, const char *text) {
    edit(made, at, 0, text, strlen(text));
}

/* ---- what is expected ---- */

/* Of one line these are judged in turn. */
static uint32_t turn(uint32_t refusal) {
    return refusal == 12 ? 0 : refusal == 7 ? 1 : 2;
}

/* Of several faults that of the earliest line is told, and of one line the one judged first. */
static void expect(TableCase *made, uint32_t refusal, uint32_t line) {
    Expected *was = &made->expected;
    if (was->refusal == 0 || line < was->line || (line == was->line && turn(refusal) < turn(was->refusal))) {
        *was = (Expected){refusal, line};
    }
}

/* ---- faults of a line: each makes some line a bad one ---- */

/* Mostly one of a record; the header and the last line have their share. */
static uint32_t any_line(const TableCase *made, Chance *chance) {
    uint32_t last = lines_of(made);
    switch (below(chance, 6)) {
    case 0: return 1;
    case 1: return last;
    default: return between(chance, 2, last);
    }
}

static uint32_t record_line(const TableCase *made, Chance *chance) {
    uint32_t last = lines_of(made);
    return last < 2 ? 1 : one_in(chance, 4) ? last : between(chance, 2, last);
}

/* Before a number, behind it or on both sides. */
static void around_field(TableCase *made, const char *text, uint32_t sides, Chance *chance) {
    uint32_t line = any_line(made, chance);
    Part field = any_field(made, line, chance);
    if (sides != 1) {
        insert(made, field.at + field.length, text);
    }
    if (sides != 2) {
        insert(made, field.at, text);
    }
    expect(made, 12, line);
}

static void add_space(TableCase *made, Chance *chance) {
    around_field(made, " ", between(chance, 1, 2), chance);
}

static void add_tab(TableCase *made, Chance *chance) {
    around_field(made, "\t", between(chance, 1, 2), chance);
}

static void add_sign(TableCase *made, Chance *chance) {
    around_field(made, one_in(chance, 2) ? "+" : "-", 1, chance);
}

static void add_quotes(TableCase *made, Chance *chance) {
    around_field(made, one_in(chance, 4) ? "'" : "\"", 0, chance);
}

static void add_zeros(TableCase *made, Chance *chance) {
    around_field(made, one_in(chance, 4) ? "0000000000000000" : "0", 1, chance);
}

static void replace_field(TableCase *made, const char *text, Chance *chance) {
    uint32_t line = record_line(made, chance);
    Part field = any_field(made, line, chance);
    edit(made, field.at, field.length, text, strlen(text));
    expect(made, 12, line);
}

static void double_zero(TableCase *made, Chance *chance) {
    replace_field(made, "00", chance);
}

static void just_too_great(TableCase *made, Chance *chance) {
    replace_field(made, "4294967296", chance);
}

/* Numbers that are small ones, or the greatest, in arithmetic of 32 or 64 bits. */
static void wrap(TableCase *made, Chance *chance) {
    static const char *const texts[] = {"4294967297",           "4294967306",           "8589934592",
                                        "9999999999",           "8589934591",           "18446744073709551615",
                                        "18446744073709551616", "18446744073709551619", "18446744078004518911",
                                        "42949672960",          "10000000000"};
    replace_field(made, texts[below(chance, sizeof texts / sizeof *texts)], chance);
}

static void very_long_number(TableCase *made, Chance *chance) {
    char text[400];
    size_t length = one_in(chance, 2) ? 11 : between(chance, 11, sizeof text - 1);
    for (size_t i = 0; i < length; i++) {
        text[i] = (char)('0' + (i == 0 ? between(chance, 1, 9) : below(chance, 10)));
    }
    text[length] = '\0';
    replace_field(made, text, chance);
}

static void five_numbers(TableCase *made, Chance *chance) {
    uint32_t line = any_line(made, chance);
    Part field = any_field(made, line, chance);
    bool last = made->table[field.at + field.length] == '\n';
    edit(made, field.at - last, field.length + 1, "", 0);
    expect(made, 12, line);
}

static void seven_numbers(TableCase *made, Chance *chance) {
    uint32_t line = any_line(made, chance);
    insert(made, any_field(made, line, chance).at, "7,");
    expect(made, 12, line);
}

static void comma_behind(TableCase *made, Chance *chance) {
    uint32_t line = any_line(made, chance);
    insert(made, end_of_line(made, line), ",");
    expect(made, 12, line);
}

static void comma_in_front(TableCase *made, Chance *chance) {
    uint32_t line = any_line(made, chance);
    insert(made, line_of(made, line).at, ",");
    expect(made, 12, line);
}

static void number_missing(TableCase *made, Chance *chance) {
    uint32_t line = any_line(made, chance);
    Part field = any_field(made, line, chance);
    edit(made, field.at, field.length, "", 0);
    expect(made, 12, line);
}

static void other_separator(TableCase *made, Chance *chance) {
    static const char others[] = {';', '.', ' ', '\t', '|', '-', '+', '\xac', '\0', '\r'};
    uint32_t line = any_line(made, chance);
    Part field;
    do {
        field = any_field(made, line, chance);
    } while (made->table[field.at + field.length] != ',');
    edit(made, field.at + field.length, 1, &others[below(chance, sizeof others)], 1);
    expect(made, 12, line);
}

static void byte_order_mark(TableCase *made, Chance *chance) {
    uint32_t line = one_in(chance, 2) ? 1 : any_line(made, chance);
    insert(made, line_of(made, line).at, "\xef\xbb\xbf");
    expect(made, 12, line);
}

/* The byte is no digit, no comma and no line feed. */
static void insert_byte(TableCase *made, uint8_t byte, Chance *chance) {
    uint32_t line = any_line(made, chance);
    Part part = line_of(made, line);
    edit(made, part.at + below(chance, part.length + 1), 0, &byte, 1);
    expect(made, 12, line);
}

static void zero_byte(TableCase *made, Chance *chance) {
    insert_byte(made, 0, chance);
}

static void high_byte(TableCase *made, Chance *chance) {
    uint32_t line = any_line(made, chance);
    Part part = line_of(made, line);
    if (one_in(chance, 3)) {
        insert_byte(made, (uint8_t)between(chance, 128, 255), chance);
        return;
    }
    /* what it was, but for its highest bit */
    made->table[part.at + below(chance, part.length)] |= 0x80;
    expect(made, 12, line);
}

static void other_byte(TableCase *made, Chance *chance) {
    static const uint8_t others[] = {'/', ':', 'e', 'x', 'a', '_', '.', '\v', '\f', '\b', 0x7f, 0x1a, '#', '\\'};
    insert_byte(made, others[below(chance, sizeof others)], chance);
}

static void return_before_feed(TableCase *made, Chance *chance) {
    uint32_t line = any_line(made, chance);
    insert(made, end_of_line(made, line), "\r");
    expect(made, 12, line);
}

static void returns_before_feeds(TableCase *made, Chance *chance) {
    (void)chance;
    for (uint32_t line = lines_of(made); line > 0; line--) {
        insert(made, end_of_line(made, line), "\r");
    }
    expect(made, 12, 1);
}

static void return_for_feed(TableCase *made, Chance *chance) {
    uint32_t line = any_line(made, chance);
    made->table[end_of_line(made, line)] = '\r';
    expect(made, 12, line);
}

static void empty_line(TableCase *made, Chance *chance) {
    uint32_t line = any_line(made, chance);
    insert(made, line_of(made, line).at, "\n");
    expect(made, 12, line);
}

static void empty_line_behind(TableCase *made, Chance *chance) {
    (void)chance;
    insert(made, made->table_length, "\n");
    expect(made, 12, lines_of(made));
}

static void joined_lines(TableCase *made, Chance *chance) {
    uint32_t line = between(chance, 1, lines_of(made) - 1);
    edit(made, end_of_line(made, line), 1, "", 0);
    expect(made, 12, line);
}

static void last_unclosed(TableCase *made, Chance *chance) {
    (void)chance;
    expect(made, 12, lines_of(made));
    made->table_length--;
}

static void header_again(TableCase *made, Chance *chance) {
    uint32_t line = between(chance, 2, lines_of(made) + 1);
    insert(made, line_of(made, line).at, table_header);
    expect(made, 12, line);
}

/* ---- faults of the header, and of the table's end ---- */

static void no_byte(TableCase *made, Chance *chance) {
    (void)chance;
    made->table_length = 0;
    expect(made, 12, 1);
}

static void no_header(TableCase *made, Chance *chance) {
    (void)chance;
    edit(made, 0, HEADER_LINE_BYTES, "", 0);
    expect(made, 12, 1);
}

static void header_changed(TableCase *made, Chance *chance) {
    size_t at = below(chance, HEADER_LINE_BYTES - 1);
    switch (below(chance, 3)) {
    case 0: made->table[at] ^= (uint8_t)(1u << below(chance, 8)); break;
    case 1: edit(made, at, 1, "", 0); break;
    default: edit(made, at, 0, &table_header[at], 1); break;
    }
    expect(made, 12, 1);
}

/* All the words, in another order or in capitals. */
static void other_header(TableCase *made, Chance *chance) {
    static const char *const others[] = {"job,task,release,start,end,core\n",  "task,job,start,release,end,core\n",
                                         "TASK,JOB,RELEASE,START,END,CORE\n",  "Task,job,release,start,end,core\n",
                                         "task,job,release,start,end,cores\n", "task, job, release, start, end, core\n"};
    const char *other = others[below(chance, sizeof others / sizeof *others)];
    edit(made, 0, HEADER_LINE_BYTES, other, strlen(other));
    expect(made, 12, 1);
}

static void cut_in_header(TableCase *made, Chance *chance) {
    made->table_length = between(chance, 1, HEADER_LINE_BYTES - 1);
    expect(made, 12, 1);
}

void cut_to(TableCase *made, size_t length) {
    made->table_length = length < made->table_length ? length : made->table_length;
    if (made->table_length == 0 || made->table[made->table_length - 1] != '\n') {
        expect(made, 12, lines_of(made) + 1);
    }
}

void cut_anywhere(TableCase *made, Chance *chance) {
    cut_to(made, below(chance, made->table_length));
}

/* ---- jobs given twice ---- */

/* A later line gives the job of an earlier one, with its other numbers or with others. */
static void give_again(TableCase *made, uint32_t earlier, uint32_t later, Chance *chance) {
    uint8_t line[100];
    Part part = line_of(made, earlier);
    const uint8_t *text = made->table + part.at;
    size_t length = part.length + 1;
    memcpy(line, text, length);
    if (one_in(chance, 2)) {
        size_t job = (size_t)((const uint8_t *)memchr(text, ',', length) - text) + 1;
        job += (size_t)((const uint8_t *)memchr(text + job, ',', length - job) - (text + job)) + 1;
        length = job;
        for (uint32_t i = 2; i < RECORD_NUMBERS; i++) {
            length += put_decimal(line + length, any_number(chance), i + 1 < RECORD_NUMBERS ? ',' : '\n');
        }
    }
    edit(made, line_of(made, later).at, 0, line, length);
    expect(made, later > MOST_JOBS + 1 ? 7 : 13, later);
}

static void again_next(TableCase *made, Chance *chance) {
    uint32_t earlier = between(chance, 2, lines_of(made));
    give_again(made, earlier, earlier + 1, chance);
}

static void again_last(TableCase *made, Chance *chance) {
    give_again(made, 2, lines_of(made) + 1, chance);
}

static void again_somewhere(TableCase *made, Chance *chance) {
    uint32_t earlier = between(chance, 2, lines_of(made));
    give_again(made, earlier, between(chance, earlier + 1, lines_of(made) + 1), chance);
}

static void again_and_again(TableCase *made, Chance *chance) {
    again_somewhere(made, chance);
    again_somewhere(made, chance);
}

/* ---- around the 513th line ---- */

static void spoil_line(TableCase *made, uint32_t line, Chance *chance) {
    Part field = any_field(made, line, chance);
    insert(made, field.at, one_in(chance, 2) ? "0" : " ");
    expect(made, 12, line);
}

static void last_bad(TableCase *made, Chance *chance) {
    spoil_line(made, lines_of(made), chance);
}

/* ---- two faults ---- */

static void two_bad(TableCase *made, Chance *chance) {
    uint32_t last = lines_of(made), one = between(chance, 1, last - 1);
    spoil_line(made, one, chance);
    spoil_line(made, between(chance, one + 1, last), chance);
}

static void again_and_bad(TableCase *made, Chance *chance) {
    again_somewhere(made, chance);
    spoil_line(made, any_line(made, chance), chance);
}

/* ---- the kinds ---- */

void nothing(TableCase *made, Chance *chance) {
    (void)made, (void)chance;
}

static const Kind all_kinds[] = {
    /* the table is imported */
    {"by start", SORTED, nothing},
    {"in any order", IN_ANY_ORDER, nothing},
    {"jobs missing", SOME, nothing},
    {"header alone", NONE, nothing},
    {"border numbers", AT_BORDERS, nothing},
    {"alike jobs", ALIKE, nothing},
    {"512 lines", FULL_512, nothing},
    /* 12 */
    {"space", IN_ANY_ORDER, add_space},
    {"tab", IN_ANY_ORDER, add_tab},
    {"sign", IN_ANY_ORDER, add_sign},
    {"quotes", IN_ANY_ORDER, add_quotes},
    {"leading zeros", IN_ANY_ORDER, add_zeros},
    {"00", IN_ANY_ORDER, double_zero},
    {"2^32", IN_ANY_ORDER, just_too_great},
    {"beyond 2^32", IN_ANY_ORDER, wrap},
    {"many digits", IN_ANY_ORDER, very_long_number},
    {"five numbers", IN_ANY_ORDER, five_numbers},
    {"seven numbers", IN_ANY_ORDER, seven_numbers},
    {"comma behind", IN_ANY_ORDER, comma_behind},
    {"comma in front", IN_ANY_ORDER, comma_in_front},
    {"no number", IN_ANY_ORDER, number_missing},
    {"no comma", IN_ANY_ORDER, other_separator},
    {"byte-order mark", IN_ANY_ORDER, byte_order_mark},
    {"zero byte", IN_ANY_ORDER, zero_byte},
    {"high byte", IN_ANY_ORDER, high_byte},
    {"other byte", IN_ANY_ORDER, other_byte},
    {"CR LF", IN_ANY_ORDER, return_before_feed},
    {"CR LF throughout", IN_ANY_ORDER, returns_before_feeds},
    {"CR for LF", IN_ANY_ORDER, return_for_feed},
    {"empty line", IN_ANY_ORDER, empty_line},
    {"empty last line", IN_ANY_ORDER, empty_line_behind},
    {"LF missing", IN_ANY_ORDER, joined_lines},
    {"last LF missing", IN_ANY_ORDER, last_unclosed},
    {"header again", IN_ANY_ORDER, header_again},
    {"no byte", IN_ANY_ORDER, no_byte},
    {"no header", IN_ANY_ORDER, no_header},
    {"header changed", IN_ANY_ORDER, header_changed},
    {"other header", IN_ANY_ORDER, other_header},
    {"header cut", IN_ANY_ORDER, cut_in_header},
    {"cut", IN_ANY_ORDER, cut_anywhere},
    {"512th bad", FULL_512, last_bad},
    {"513th bad", FULL_513, last_bad},
    {"513th unclosed", FULL_513, last_unclosed},
    {"513th empty", FULL_512, empty_line_behind},
    /* 13 */
    {"again at once", IN_ANY_ORDER, again_next},
    {"again at the end", IN_ANY_ORDER, again_last},
    {"again and again", IN_ANY_ORDER, again_and_again},
    {"512th again", FULL_511, again_last},
    /* 7 */
    {"513 lines", FULL_513, nothing},
    {"513th again", FULL_512, again_last},
    {"514th bad", FULL_514, last_bad},
    /* two faults at once */
    {"two bad", IN_ANY_ORDER, two_bad},
    {"again and bad", IN_ANY_ORDER, again_and_bad},
};

_Static_assert(sizeof all_kinds / sizeof *all_kinds == BORDERS, "BORDERS counts the kinds");
const Kind *const kinds = all_kinds;
