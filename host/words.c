#include "words.h"

#include <octalmure.h>
#include <string.h>

static const Word *const words[] = {&check_word, &carry_word,   &show_word,   &say_word,
                                    &why_word,   &explain_word, &import_word, &export_word};
enum { WORDS = sizeof words / sizeof words[0] };

static const char scheme[] = "Exit status, of every word: 0 accepted or written; 1 a rule is broken; 3 refused; 2 trouble with\n"
                             "the command line, with reading, with writing or with building.\n";

const Word *find_word(const char *name) {
    for (size_t i = 0; i < WORDS; i++) {
        if (strcmp(words[i]->name, name) == 0) {
            return words[i];
        }
    }
    return NULL;
}

static void print_list(FILE *out) {
    fprintf(out, "usage: octalmure WORD FILE ...\n\n"
                 "Checks a recorded run of blocks against the published rules, carries it to a longer horizon, tells\n"
                 "why its late blocks were late, and takes and gives its records as a text table.\n\n");
    for (size_t i = 0; i < WORDS; i++) {
        fprintf(out, "  %-7s %-30s %s\n", words[i]->name, words[i]->usage, words[i]->summary);
    }
    fprintf(out, "\n'-' for FILE, TABLE or NAMES is standard input; '--' ends the options, so that a name may begin with '-'.\n"
                 "'octalmure WORD --help' says more of a word, 'octalmure --version' which version this is.\n\n");
}

void print_help(FILE *out, const Word *word) {
    if (word == NULL) {
        print_list(out);
    } else {
        fprintf(out, "usage: octalmure %s %s\n\n%s\n", word->name, word->usage, word->help);
    }
    fputs(scheme, out);
}
