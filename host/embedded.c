#include "embedded.h"

/* The bytes of a file, by its path from the repository's folder, in which everything is compiled; and a zero byte. */
#define EMBED(name, path)                                                                                          \
    __asm__(".section .rodata\n.global " #name "\n.type " #name ", %object\n" #name ":\n.incbin \"" path "\"\n" \
            ".byte 0\n.size " #name ", . - " #name "\n.previous\n")

EMBED(page_template, "host/page/page.html");
EMBED(picture_template, "host/page/picture.html");
EMBED(style_sheet, "host/page/style.css");
EMBED(script, "host/page/script.js");
