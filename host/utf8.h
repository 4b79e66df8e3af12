#ifndef OCTALMURE_UTF8_H
#define OCTALMURE_UTF8_H

#include <stdbool.h>
#include <stddef.h>
#include <stdint.h>

/* Whether these bytes are whole characters in UTF-8: none in more bytes than it needs, no surrogate, none above U+10FFFF. */
bool is_utf8(const uint8_t *bytes, size_t length);

#endif
