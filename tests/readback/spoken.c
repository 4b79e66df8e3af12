#include "spoken.h"

#include <inttypes.h>
#include <stdio.h>
#include <stdlib.h>
#include <string.h>
#include <sys/stat.h>
#include <unistd.h>

#include "words.h"

/* ---- speaking ---- */

static bool standard_output_is_empty(void) {
    struct stat about;
    fflush(stdout);
    return fstat(STDOUT_FILENO, &about) == 0 && about.st_size == 0;
}

static Spoken run_word(const char *word, const Asked *asked) {
    Spoken spoken = {0};
    Output output;
    char *errors = NULL;
    size_t errors_length = 0;
    FILE *kept = stderr;
    if (open_output(&output) != FINE || (stderr = open_memstream(&errors, &errors_length)) == NULL) {
        abort();
    }
    spoken.status = find_word(word)->run(asked, &output);
    fclose(stderr);
    stderr = kept;
    if (ferror(output.text) || fclose(output.text) != 0) {
        abort();
    }
    spoken.text = output.bytes;
    spoken.length = output.length;
    spoken.quiet = errors_length == 0 && standard_output_is_empty();
    free(errors);
    return spoken;
}

Spoken speak(const char *word, const char *file, const char *behind) {
    return run_word(word, &(Asked){.given = {file, behind}, .count = behind != NULL ? 2 : 1});
}

Spoken speak_json(const char *file) {
    return run_word("explain", &(Asked){.given = {file}, .count = 1, .json = true});
}

/* ---- asking ---- */

bool is_plain(const Spoken *spoken) {
    for (size_t i = 0; i < spoken->length; i++) {
        char byte = spoken->text[i];
        if (byte != '\n' && (byte < ' ' || byte > '~')) {
            return false;
        }
    }
    return spoken->length > 0 && spoken->text[spoken->length - 1] == '\n';
}

/* The line after this one; the end of the text after the last one. */
static const char *next_line(const char *line) {
    const char *end = strchr(line, '\n');
    return end != NULL ? end + 1 : line + strlen(line);
}

static bool begins(const char *line, const char *with) {
    return strncmp(line, with, strlen(with)) == 0;
}

size_t lines_that_begin(const Spoken *spoken, const char *with) {
    size_t count = 0;
    for (const char *line = spoken->text; *line != '\0'; line = next_line(line)) {
        count += begins(line, with);
    }
    return count;
}

/* The first line that begins so; the end of the text if there is none. */
static const char *line_that_begins(const Spoken *spoken, const char *with) {
    const char *line = spoken->text;
    while (*line != '\0' && !begins(line, with)) {
        line = next_line(line);
    }
    return line;
}

bool names_records(const Spoken *spoken, uint32_t count) {
    char title[40];
    snprintf(title, sizeof title, "Records: %" PRIu32 "\n", count);
    const char *line = line_that_begins(spoken, title);
    if (count == 0) {
        return *line != '\0' && *next_line(line) == '\n';
    }
    line = next_line(line);
    if (!begins(line, "record ")) {
        return false;
    }
    for (uint32_t k = 0; k < count; k++) {
        char *end;
        line = next_line(line);
        if (*line == '\n' || strtoul(line, &end, 10) != k || *end != ' ') {
            return false;
        }
    }
    return *next_line(line) == '\n';
}

/* The picture begins three lines before its first core: the numbers, the ruler, H. */
bool picture_fits(const Spoken *spoken, uint32_t cores, size_t width) {
    enum { BEFORE = 3 };
    const char *lines[BEFORE] = {NULL}, *line = spoken->text;
    size_t seen = 0;
    for (; *line != '\0' && !begins(line, "core 1 "); line = next_line(line)) {
        lines[seen++ % BEFORE] = line;
    }
    if (*line == '\0' || seen < BEFORE) {
        return false;
    }
    line = lines[seen % BEFORE];
    for (uint32_t left = BEFORE + 2 * cores; left > 0; left--, line = next_line(line)) {
        if (strcspn(line, "\n") > width) {
            return false;
        }
    }
    return !begins(line, "core ") && lines_that_begin(spoken, "core ") == cores && lines_that_begin(spoken, "  due") == cores;
}
