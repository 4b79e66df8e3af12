/* octalmure WORD ...: takes the command line apart, runs the word, and writes what it said. */
#include <octalmure.h>
#include <signal.h>
#include <string.h>

#include "output.h"
#include "status.h"
#include "words.h"

/* What the command line comes to behind a word; the first of them that is wrong, or asks for help, decides. */
typedef enum { TO_RUN, TO_HELP, WRONG } Wanted;

static bool is_help(const char *text) {
    return strcmp(text, "--help") == 0 || strcmp(text, "-h") == 0;
}

static Wanted wrong(const char *what, const char *why) {
    trouble(what, why);
    return WRONG;
}

/* The words of the command line, and the one that is being taken. */
typedef struct {
    int count, at;
    char **words;
} Line;

/* What an option names: the rest of its own word if there is one, or the next word, which is then taken too. */
static Wanted take_name(Line *line, const char *option, const char *rest, const char **name) {
    if (rest == NULL && line->at + 1 == line->count) {
        return wrong(option, "the name of the file is missing");
    }
    if (*name != NULL) {
        return wrong(option, "given twice");
    }
    if (rest == NULL) {
        line->at++;
        rest = line->words[line->at];
    }
    *name = rest;
    return TO_RUN;
}

/* '-o OUT' or '-oOUT'. */
static Wanted take_out(const Word *word, Line *line, Asked *asked) {
    const char *rest = line->words[line->at] + 2;
    if (!word->writes) {
        return wrong(line->words[line->at], "this word writes no file, so it takes no -o");
    }
    return take_name(line, "-o", *rest != '\0' ? rest : NULL, &asked->out);
}

static const char neither[] = "this word takes neither --names nor --json; explain does";

/* '--names NAMES' or '--names=NAMES'. */
static Wanted take_names(const Word *word, Line *line, Asked *asked) {
    const char *option = line->words[line->at], *rest = strchr(option, '=');
    if (!word->names) {
        return wrong(option, neither);
    }
    return take_name(line, "--names", rest != NULL ? rest + 1 : NULL, &asked->names);
}

static Wanted take_json(const Word *word, const char *option, Asked *asked) {
    if (!word->json) {
        return wrong(option, word->names ? "this word gives no such document; explain does" : neither);
    }
    if (asked->json) {
        return wrong(option, "given twice");
    }
    asked->json = true;
    return TO_RUN;
}

static Wanted take_option(const Word *word, Line *line, Asked *asked) {
    const char *option = line->words[line->at];
    if (is_help(option)) {
        return TO_HELP;
    }
    if (strncmp(option, "-o", 2) == 0) {
        return take_out(word, line, asked);
    }
    if (strcmp(option, "--json") == 0) {
        return take_json(word, option, asked);
    }
    if (strcmp(option, "--names") == 0 || strncmp(option, "--names=", 8) == 0) {
        return take_names(word, line, asked);
    }
    return wrong(option, "no such option; a name that begins with '-' stands after '--', or as ./NAME");
}

static Wanted take_given(const Word *word, const char *text, Asked *asked) {
    if (asked->count == word->most) {
        return wrong(text, "more than this word takes");
    }
    asked->given[asked->count] = text;
    asked->count++;
    return TO_RUN;
}

/* What stands behind the word. */
static Wanted take_apart(const Word *word, int argc, char **argv, Asked *asked) {
    bool options = true;
    for (Line line = {.count = argc, .at = 2, .words = argv}; line.at < argc; line.at++) {
        const char *text = argv[line.at];
        Wanted wanted = TO_RUN;
        if (options && strcmp(text, "--") == 0) {
            options = false;
        } else if (options && text[0] == '-' && text[1] != '\0') {
            wanted = take_option(word, &line, asked);
        } else {
            wanted = take_given(word, text, asked);
        }
        if (wanted != TO_RUN) {
            return wanted;
        }
    }
    return asked->count >= word->least ? TO_RUN : wrong(word->name, "something is missing behind it");
}

static Status run_word(const Word *word, int argc, char **argv, Output *output) {
    Asked asked = {0};
    switch (take_apart(word, argc, argv, &asked)) {
    case TO_RUN: return word->run(&asked, output);
    case TO_HELP: print_help(output->text, word); return FINE;
    default: fprintf(stderr, "usage: octalmure %s %s\n", word->name, word->usage); return TROUBLE;
    }
}

/* 'help' and 'help WORD' are '--help' and 'WORD --help'. */
static Status run_help(int argc, char **argv, Output *output) {
    const Word *word = argc > 2 ? find_word(argv[2]) : NULL;
    if (argc > 2 && word == NULL) {
        return trouble(argv[2], "no such word; 'octalmure --help' lists them");
    }
    print_help(output->text, word);
    return FINE;
}

static Status run(int argc, char **argv, Output *output) {
    if (argc < 2) {
        print_help(stderr, NULL);
        return TROUBLE;
    }
    if (is_help(argv[1]) || strcmp(argv[1], "help") == 0) {
        return run_help(argc, argv, output);
    }
    if (strcmp(argv[1], "--version") == 0) {
        fputs("octalmure " OCTALMURE_VERSION "\n", output->text);
        return FINE;
    }
    const Word *word = find_word(argv[1]);
    return word != NULL ? run_word(word, argc, argv, output) : trouble(argv[1], "no such word; 'octalmure --help' lists them");
}

int main(int argc, char **argv) {
    Output output;
    keep_descriptors();
    /* A pipe that ends early and a file that may grow no more are then reasons for which a write fails. */
    signal(SIGPIPE, SIG_IGN);
    signal(SIGXFSZ, SIG_IGN);
    if (open_output(&output) != FINE) {
        return TROUBLE;
    }
    return close_output(&output, run(argc, argv, &output));
}
