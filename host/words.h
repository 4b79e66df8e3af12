/* The words of the command. Each is a source file of its own, which has its row; words.c has the table. */
#ifndef OCTALMURE_WORDS_H
#define OCTALMURE_WORDS_H

#include <stdbool.h>
#include <stddef.h>

#include "output.h"
#include "status.h"

enum { MOST_GIVEN = 2 };

/* What was asked for, behind the word. */
typedef struct {
    const char *given[MOST_GIVEN]; /* FILE, and perhaps a horizon, a table or a record */
    size_t count;
    const char *out;   /* of '-o OUT'; NULL if there is none */
    const char *names; /* of '--names NAMES'; NULL if there is none */
    bool json;         /* '--json' was given */
} Asked;

typedef struct {
    const char *name;
    const char *usage;   /* what stands behind the name */
    const char *summary; /* one line of the list of words */
    const char *help;    /* what --help says of it, after its usage */
    size_t least, most;  /* how many it is given */
    bool writes;         /* it takes -o OUT */
    bool names;          /* it takes --names NAMES */
    bool json;           /* it takes --json */
    Status (*run)(const Asked *asked, Output *output);
} Word;

/* What the help says of -o OUT, of a word that writes, and of --names NAMES. */
#define HELP_OF_OUT                                                                                     \
    "  -o OUT  writes it to the file OUT instead, under another name first, so that OUT is whole or\n" \
    "          untouched; '-o -' is standard output\n"
#define HELP_OF_NAMES                                                                                   \
    "  --names NAMES  calls tasks by the names that the text file NAMES gives them, in lines TASK,NAME:\n" \
    "                 a task's number, 0 to 31, a comma, and its name, which is all the rest of the line;\n" \
    "                 '-' is standard input, unless FILE is\n"

/* In the order in which they are listed. A word to come is a line here, its name in words.c, and its file. */
extern const Word check_word, carry_word, show_word, say_word, why_word, explain_word, page_word, trace_word, import_word, export_word;

/* NULL if there is no such word. */
const Word *find_word(const char *name);
/* The help of one word, or of the whole for NULL. */
void print_help(FILE *out, const Word *word);

#endif
