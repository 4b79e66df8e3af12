#include "names.h"

#include <inttypes.h>
#include <string.h>

#include "utf8.h"

/* What is being read, and on which line each task stands; 0: on none so far. */
typedef struct {
    Names *names;
    uint32_t line, lines[OCTALMURE_MOST_TASKS];
} Reading;

static Status bad(const Reading *reading, const char *why) {
    char said[160];
    snprintf(said, sizeof said, "line %" PRIu32 ": %s", reading->line, why);
    return trouble(reading->names->text.name, said);
}

static Status bad_again(const Reading *reading, uint32_t task) {
    char said[80];
    snprintf(said, sizeof said, "task %" PRIu32 " stands on line %" PRIu32 " already", task, reading->lines[task]);
    return bad(reading, said);
}

/* The task of so many digits; false if it is none. */
static bool task_at(const uint8_t *digits, size_t length, uint32_t *task) {
    *task = 0;
    for (size_t i = 0; i < length; i++) {
        if (digits[i] < '0' || digits[i] > '9' || *task >= OCTALMURE_MOST_TASKS) {
            return false;
        }
        *task = 10 * *task + (uint32_t)(digits[i] - '0');
    }
    return length > 0 && (length == 1 || digits[0] != '0') && *task < OCTALMURE_MOST_TASKS;
}

/* A line without what closes it, in whose place a zero byte can stand. */
static Status take_line(Reading *reading, uint8_t *line, size_t length) {
    const uint8_t *comma = memchr(line, ',', length);
    uint32_t task;
    if (memchr(line, '\0', length) != NULL) {
        return bad(reading, "a zero byte: a name is text");
    }
    if (!is_utf8(line, length)) {
        return bad(reading, "bytes that are not UTF-8");
    }
    if (comma == NULL) {
        return bad(reading, "no comma: a line is TASK,NAME");
    }
    if (!task_at(line, (size_t)(comma - line), &task)) {
        return bad(reading, "no task before the comma: 0 to 31 is one, without leading zeros");
    }
    if (reading->lines[task] != 0) {
        return bad_again(reading, task);
    }
    reading->lines[task] = reading->line;
    line[length] = '\0';
    reading->names->of[task] = comma[1] != '\0' ? (const char *)comma + 1 : NULL;
    return FINE;
}

/* Line by line: a line feed closes each, and may be missing after the last. A carriage return before it is what spreadsheets write. */
static Status take_lines(Reading *reading, uint8_t *at, size_t left) {
    while (left > 0) {
        const uint8_t *feed = memchr(at, '\n', left);
        size_t length = feed != NULL ? (size_t)(feed - at) : left, taken = feed != NULL ? length + 1 : length;
        bool returns = feed != NULL && length > 0 && at[length - 1] == '\r';
        reading->line++;
        if (take_line(reading, at, returns ? length - 1 : length) != FINE) {
            return TROUBLE;
        }
        at += taken;
        left -= taken;
    }
    return FINE;
}

Status read_names(const char *name, Names *names) {
    static const uint8_t mark[] = {0xEF, 0xBB, 0xBF}; /* the byte-order mark, which spreadsheets write */
    Input *text = &names->text;
    Reading reading = {.names = names};
    memset(names->of, 0, sizeof names->of);
    names->marked = false;
    if (read_text_of_names(name, text) != FINE) {
        return TROUBLE;
    }
    if (text->length == MOST_NAMES) {
        return trouble(text->name, "too long: a names file has at most 65,536 bytes");
    }
    size_t front = text->length >= sizeof mark && memcmp(text->bytes, mark, sizeof mark) == 0 ? sizeof mark : 0;
    return take_lines(&reading, text->bytes + front, text->length - front);
}

const char *name_of(const Names *names, uint32_t task) {
    return names != NULL && task < OCTALMURE_MOST_TASKS ? names->of[task] : NULL;
}
