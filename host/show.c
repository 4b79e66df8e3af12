/* octalmure show FILE */
#include "columns.h"
#include "input.h"
#include "layout.h"
#include "library.h"
#include "picture.h"
#include "sentences.h"
#include "tables.h"
#include "words.h"

static void show_size(FILE *out, const Input *input) {
    put_visible(out, input->name);
    if (input->length < MOST_RUN) {
        fprintf(out, ": %zu bytes\n", input->length);
    } else {
        fprintf(out, ": more than %d bytes\n", OCTALMURE_MOST_FILE_BYTES);
    }
}

static Status run(const Asked *asked, Output *output) {
    Input input;
    if (read_run(asked->given[0], &input) != FINE) {
        return TROUBLE;
    }
    struct octalmure_answer answer = check_bytes(input.bytes, input.length);
    Status status = status_of(&answer);
    Layout layout = layout_of(input.bytes, input.length);
    show_size(output->text, &input);
    say_verdict(output->text, &layout, &answer);
    if (status != FINE) {
        say_details(output->text, &(Said){&layout, NULL, false, 0}, &answer);
    }
    print_tables(output->text, &layout, status);
    if (status != REFUSED) {
        fputc('\n', output->text);
        draw_cores(output->text, &layout, status == FINE, columns_of_terminal());
    }
    return status;
}

const Word show_word = {
    .name = "show",
    .usage = "FILE",
    .summary = "setting, tasks and records, and a line for each core",
    .help = "Shows what stands in FILE: what the check says of it, the setting, the tasks, and the records with their\n"
            "deadlines, and for an accepted run by how much each is late; then a line for each core, from start to\n"
            "end of its records, as wide as the terminal (COLUMNS, or 80, if there is none). Of a file that is\n"
            "refused it shows what could be read and where that stops, and draws nothing.\n",
    .least = 1,
    .most = 1,
    .run = run,
};
