#define _GNU_SOURCE /* fopencookie */
#include "html.h"

#include "called.h"

static void put_sign(FILE *out, char sign) {
    switch (sign) {
    case '&': fputs("&amp;", out); break;
    case '<': fputs("&lt;", out); break;
    case '>': fputs("&gt;", out); break;
    case '"': fputs("&quot;", out); break;
    case '\'': fputs("&#39;", out); break;
    case NAME_BEGINS: fputs("<bdi>", out); break;
    case NAME_ENDS: fputs("</bdi>", out); break;
    default: fputc(sign, out); break;
    }
}

static ssize_t put_signs(void *document, const char *signs, size_t count) {
    for (size_t i = 0; i < count; i++) {
        put_sign(document, signs[i]);
    }
    return ferror((FILE *)document) ? -1 : (ssize_t)count;
}

FILE *open_text(FILE *document) {
    FILE *text = fopencookie(document, "w", (cookie_io_functions_t){.write = put_signs});
    if (text != NULL) {
        setvbuf(text, NULL, _IONBF, 0);
    }
    return text;
}
