#include "status.h"

#include <string.h>

/* How many bytes the control character has that stands here: 0 if there is none. */
static size_t control_at(const unsigned char *text) {
    if (text[0] < 32 || text[0] == 127) {
        return 1;
    }
    return text[0] == 0xC2 && text[1] >= 0x80 && text[1] < 0xA0 ? 2 : 0;
}

void put_visible(FILE *out, const char *text) {
    const unsigned char *at = (const unsigned char *)text;
    while (*at != '\0') {
        size_t control = control_at(at);
        fputc(control > 0 ? '?' : *at, out);
        at += control > 0 ? control : 1;
    }
}

Status trouble(const char *what, const char *why) {
    fputs("octalmure: ", stderr);
    put_visible(stderr, what);
    fprintf(stderr, ": %s\n", why);
    return TROUBLE;
}

Status system_trouble(const char *what, int error) {
    return trouble(what, strerror(error));
}
