#include "json.h"

#include <inttypes.h>
#include <string.h>

/* What must not stand in a string is escaped, and so is every other control character: the document may be shown on a terminal. Gives
   how many bytes were taken. */
static size_t put_character(FILE *out, const unsigned char *at) {
    if (at[0] == '"' || at[0] == '\\') {
        fprintf(out, "\\%c", at[0]);
        return 1;
    }
    if (at[0] < 32 || at[0] == 127) {
        fprintf(out, "\\u%04x", (unsigned)at[0]);
        return 1;
    }
    if (at[0] == 0xC2 && at[1] >= 0x80 && at[1] < 0xA0) {
        fprintf(out, "\\u%04x", (unsigned)at[1]);
        return 2;
    }
    fputc(at[0], out);
    return 1;
}

static void put_inside(FILE *out, const char *text, size_t length) {
    const unsigned char *at = (const unsigned char *)text, *end = at + length;
    while (at < end) {
        at += put_character(out, at);
    }
}

static void put_part(FILE *out, const char *text, size_t length) {
    fputc('"', out);
    put_inside(out, text, length);
    fputc('"', out);
}

void put_text(FILE *out, const char *text) {
    put_inside(out, text, strlen(text));
}

void put_string(FILE *out, const char *text) {
    if (text == NULL) {
        fputs("null", out);
    } else {
        put_part(out, text, strlen(text));
    }
}

void put_lines(FILE *out, const char *text) {
    fputc('[', out);
    for (bool first = true; *text != '\0'; first = false) {
        text += strspn(text, " ");
        size_t length = strcspn(text, "\n");
        fputs(first ? "" : ", ", out);
        put_part(out, text, length);
        text += length + 1;
    }
    fputc(']', out);
}

void put_number(FILE *out, const char *key, bool known, uint64_t number) {
    fprintf(out, ", \"%s\": ", key);
    if (known) {
        fprintf(out, "%" PRIu64, number);
    } else {
        fputs("null", out);
    }
}
