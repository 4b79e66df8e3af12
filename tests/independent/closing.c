#include "closing.h"

#include <stdbool.h>

#include "parts.h"

typedef struct {
    Run run;
    const Record *records[MOST_JOBS];
    size_t count;
} Chain;

/* Each number is that of a record, the first that of the one asked about, and none stands there twice. */
static const char *read_chain(Chain *chain, uint32_t asked, const uint8_t *at, size_t count) {
    bool seen[MOST_JOBS] = {false};
    if (count == 0 || count > chain->run.record_count) {
        return "a chain of no record, or of more than there are";
    }
    chain->count = count;
    for (size_t i = 0; i < count; i++, at += 4) {
        uint32_t k = at[0] + 256u * at[1] + 65536u * at[2] + 16777216u * at[3];
        if (k >= chain->run.record_count || (i == 0 && k != asked)) {
            return i == 0 ? "the chain does not begin with the record" : "a number of the chain is that of no record";
        }
        if (seen[k]) {
            return "a record stands twice in the chain";
        }
        seen[k] = true;
        chain->records[i] = &chain->run.records[k];
    }
    return NULL;
}

static bool precedes(const Record *before, const Record *record) {
    return before->task == record->task && before->job + 1 == record->job;
}

/* Whether the preceding job of its task, if there is one, ended at the start of the record. */
static bool preceding_ended_then(const Run *run, const Record *record) {
    for (uint32_t k = 0; k < run->record_count; k++) {
        if (precedes(&run->records[k], record) && run->records[k].end == record->start) {
            return true;
        }
    }
    return false;
}

static const char *link_wrong(const Run *run, const Record *record, const Record *cause) {
    if (record->start == record->release) {
        return "the chain goes on at a job that started at its release";
    }
    if (cause->end != record->start) {
        return "a cause did not end at the start that it is the cause of";
    }
    if (cause->start >= record->start) {
        return "the starts of the chain do not fall";
    }
    if (precedes(cause, record)) {
        return NULL;
    }
    if (cause->core != record->core) {
        return "a cause is neither the preceding job nor on the same core";
    }
    return preceding_ended_then(run, record) ? "a cause is on the same core, though the preceding job ended then" : NULL;
}

static const char *links_wrong(const Chain *chain) {
    for (size_t i = 0; i + 1 < chain->count; i++) {
        const char *wrong = link_wrong(&chain->run, chain->records[i], chain->records[i + 1]);
        if (wrong != NULL) {
            return wrong;
        }
    }
    return NULL;
}

/* It ends with a job that started at its release, and the record's end is that release and all lengths. */
static const char *end_wrong(const Chain *chain) {
    const Record *first = chain->records[chain->count - 1];
    uint64_t sum = first->release;
    if (first->start != first->release) {
        return "the chain ends with a job that did not start at its release";
    }
    for (size_t i = 0; i < chain->count; i++) {
        sum += chain->records[i]->end - chain->records[i]->start;
    }
    return sum == chain->records[0]->end ? NULL : "the record's end is not the first release and all lengths";
}

const char *chain_wrong(const uint8_t *file, size_t length, uint32_t record, const uint8_t *numbers, size_t count) {
    static Chain chain;
    oracle_read(file, length, &chain.run);
    const char *wrong = read_chain(&chain, record, numbers, count);
    wrong = wrong != NULL ? wrong : links_wrong(&chain);
    return wrong != NULL ? wrong : end_wrong(&chain);
}
