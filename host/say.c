/* octalmure say FILE [HORIZON] */
#include "input.h"
#include "layout.h"
#include "library.h"
#include "number.h"
#include "sentences.h"
#include "words.h"

static Status say_checked(FILE *out, const Said *of) {
    struct octalmure_answer answer = check_bytes(of->layout->bytes, of->layout->length);
    say_verdict(out, of->layout, &answer);
    say_details(out, of, &answer);
    return status_of(&answer);
}

static Status say_on(FILE *out, const Layout *recorded, const Number *horizon) {
    uint8_t carried[OCTALMURE_MOST_FILE_BYTES];
    struct octalmure_answer answer = carry_bytes(recorded->bytes, recorded->length, horizon->value, carried);
    say_carried(out, horizon, &answer);
    if (answer.answer != OCTALMURE_CARRIED) {
        return status_of(&answer);
    }
    Layout layout = layout_of(carried, answer.code);
    Said of = {&layout, NULL, true, recorded->setting.horizon};
    return say_checked(out, &of);
}

static Status run(const Asked *asked, Output *output) {
    Number horizon;
    Input input;
    bool on = asked->count > 1;
    if ((on && read_horizon(asked->given[1], &horizon) != FINE) || read_run(asked->given[0], &input) != FINE) {
        return TROUBLE;
    }
    Layout layout = layout_of(input.bytes, input.length);
    Said of = {&layout, NULL, false, layout.setting.horizon};
    Status status = say_checked(output->text, &of);
    return on && status == FINE ? say_on(output->text, &layout, &horizon) : status;
}

const Word say_word = {
    .name = "say",
    .usage = "FILE [HORIZON]",
    .summary = "says in sentences what a check shows, and a carry",
    .help = "Checks the run in FILE and says in sentences what was shown: every late record and by how much, or the\n"
            "lowest-numbered broken rule and its first place, or why the file is refused and where it stops.\n"
            "With HORIZON an accepted run is carried there, too, and the same is said of the carried run; nothing\n"
            "is written to a file. An accepted run without lateness says nothing about other runs.\n",
    .least = 1,
    .most = 2,
    .run = run,
};
