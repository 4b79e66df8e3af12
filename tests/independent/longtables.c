#include "longtables.h"

#include <string.h>

#include "chance.h"

enum { HEADER_LINE_BYTES = sizeof "task,job,release,start,end,core\n" - 1 };

typedef enum {
    LINE_3_BAD,       /* all lines but the third are right */
    MANY_LINES,       /* every line is right */
    ONE_LINE_AGAIN,   /* every line is the same */
    EMPTY_LINES,      /* every line but the header is empty */
    MANY_DIGITS,      /* the second line is one number */
    MANY_ZEROS,       /* the second line has zeros before its first number, and is right but for them */
    MANY_COMMAS,      /* the second line is of commas */
    MANY_SPACES,      /* the second line has spaces behind its last number, and is right but for them */
    MANY_NUMBERS,     /* the second line has more than six */
    HEADER_UNCLOSED,  /* there is no line feed, and the header goes on */
    NUMBERS_UNCLOSED, /* the second line goes on to the end of the table */
    ZEROS_BEHIND,     /* a table that is right, and zero bytes */
    LONG_SLICES       /* a table that is right as it is; the slices that are written to are long */
} Kind;

static size_t draw_length(uint64_t which, Chance *chance) {
    switch (which) {
    case 0: return LEAST_LONG_BYTES;
    case 1: return 1000000;
    case 2: return between(chance, LEAST_LONG_BYTES, 3000000);
    default: return MOST_LONG_BYTES;
    }
}

/* Repeats the text as often as it fits. */
static size_t repeat(uint8_t *table, size_t from, size_t to, const char *text) {
    size_t length = strlen(text);
    for (; from + length <= to; from += length) {
        memcpy(table + from, text, length);
    }
    return from;
}

/* Lines of rising jobs, as many as fit; all are of one length. */
static size_t right_lines(uint8_t *table, size_t from, size_t to) {
    enum { JOB_AT = 2, JOB_DIGITS = 7 };
    uint8_t line[] = "1,1000000,2,3,4,5\n";
    for (size_t length = sizeof line - 1; from + length <= to; from += length) {
        memcpy(table + from, line, length);
        size_t digit = JOB_AT + JOB_DIGITS - 1;
        for (; line[digit] == '9'; digit--) {
            line[digit] = '0';
        }
        line[digit]++;
    }
    return from;
}

/* The text between a front and a back, again and again, as the lines behind the header. */
static size_t filled(uint8_t *table, size_t length, const char *front, const char *again, const char *back) {
    size_t at = HEADER_LINE_BYTES, end = length - strlen(back);
    memcpy(table + at, front, strlen(front));
    at = repeat(table, at + strlen(front), end, again);
    memcpy(table + at, back, strlen(back));
    return at + strlen(back);
}

static size_t lengthen(Kind kind, uint8_t *table, size_t whole, size_t length) {
    static const char bad[] = "1,1,1,1,1,1\n1,2,3,4,5\n";
    size_t at = HEADER_LINE_BYTES;
    switch (kind) {
    case LINE_3_BAD: memcpy(table + at, bad, sizeof bad - 1); return right_lines(table, at + sizeof bad - 1, length);
    case MANY_LINES: return right_lines(table, at, length);
    case ONE_LINE_AGAIN: return filled(table, length, "", "7,0,1,2,3,4\n", "");
    case EMPTY_LINES: return filled(table, length, "", "\n", "");
    case MANY_DIGITS: return filled(table, length, "1", "1", "\n");
    case MANY_ZEROS: return filled(table, length, "", "0", "1,2,3,4,5,6\n");
    case MANY_COMMAS: return filled(table, length, "", ",", "\n");
    case MANY_SPACES: return filled(table, length, "1,2,3,4,5,6", " ", "\n");
    case MANY_NUMBERS: return filled(table, length, "1,2,3,4,5,6", ",7", "\n");
    case HEADER_UNCLOSED: return repeat(table, at - 1, length, "core");
    case NUMBERS_UNCLOSED: return filled(table, length, "1,2,3,4,5,6", "0", "");
    case ZEROS_BEHIND: memset(table + whole, 0, length - whole); return length;
    default: return whole;
    }
}

static Expected expected_of(Kind kind, uint32_t lines) {
    switch (kind) {
    case LINE_3_BAD: return (Expected){12, 3};
    case MANY_LINES: return (Expected){7, 514};
    case ONE_LINE_AGAIN: return (Expected){13, 3};
    case HEADER_UNCLOSED: return (Expected){12, 1};
    case ZEROS_BEHIND: return (Expected){12, lines + 1};
    case LONG_SLICES: return (Expected){0, 0};
    default: return (Expected){12, 2};
    }
}

static uint32_t lines_of(const uint8_t *table, size_t length) {
    uint32_t lines = 0;
    for (size_t i = 0; i < length; i++) {
        lines += table[i] == '\n';
    }
    return lines;
}

void make_long_table(uint64_t seed, uint64_t number, TableCase *made, uint8_t *table) {
    Kind kind = (Kind)(number % LONG_TABLE_KINDS);
    Chance chance = chance_of(seed, UINT64_C(1) << 44 | number);
    size_t length = draw_length(number / LONG_TABLE_KINDS, &chance);
    make_right_table(seed, number, made);
    memcpy(table, made->table, made->table_length);
    made->expected = expected_of(kind, lines_of(table, made->table_length));
    made->table_length = lengthen(kind, table, made->table_length, length);
    if (kind == LONG_SLICES) {
        made->import_room = made->export_room = length;
        made->import_answer_length = made->export_answer_length = length;
    }
}
