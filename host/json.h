/* Parts of a JSON document. */
#ifndef OCTALMURE_JSON_H
#define OCTALMURE_JSON_H

#include <stdbool.h>
#include <stdint.h>
#include <stdio.h>

/* A string, for text in UTF-8 that ends with a zero byte; null for NULL. */
void put_string(FILE *out, const char *text);
/* A part of a string: the same without the quotation marks, of a text that there is. */
void put_text(FILE *out, const char *text);
/* A list of strings, one for each line of a text, without the blanks at its front. A line feed closes each line. */
void put_lines(FILE *out, const char *text);
/* One more member of an object that has some: its key, and a number, or null where there is none. */
void put_number(FILE *out, const char *key, bool known, uint64_t number);

#endif
