#include "namedrun.h"

Status read_named(const Asked *asked, NamedRun *run) {
    const char *name = asked->given[0];
    bool named = asked->names != NULL;
    if (named && is_standard(name) && is_standard(asked->names)) {
        return trouble("-", "FILE and NAMES cannot both be standard input");
    }
    if (read_run(name, &run->file) != FINE || (named && read_names(asked->names, &run->names) != FINE)) {
        return TROUBLE;
    }
    run->layout = layout_of(run->file.bytes, run->file.length);
    run->said = (Said){&run->layout, named ? &run->names : NULL, false, run->layout.setting.horizon};
    return FINE;
}
