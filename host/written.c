#include "written.h"

#include "library.h"

Status give_written(const struct octalmure_answer *answer, const uint8_t *written, const char *out, Output *output) {
    if (answer->answer == OCTALMURE_WRITTEN) {
        output->place = out;
        fwrite(written, 1, answer->code, output->text);
    } else {
        print_line(output->text, answer);
    }
    return status_of(answer);
}
