/* Octalmure: checks a recorded run of non-preemptive earliest-deadline-first tasks, carries it to a longer horizon, takes and gives
 * its records as a text table, and tells the chain of causes for which a job began when it did.
 *
 * For C11 and C++11 and later, on x86-64 Linux. Link with -loctalmure; pkg-config knows it as "octalmure".
 * The words of this file (run file, record, ready, late, H, the rules, text table, chain) are explained in docs/FORMAT.md of the
 * source.
 *
 * An accepted run without lateness says nothing about other runs of the same tasks.
 */
#ifndef OCTALMURE_H
#define OCTALMURE_H

#include <stddef.h>
#include <stdint.h>

#define OCTALMURE_VERSION "0.5.0"

/* One cast for both languages: C++ warns of C's. */
#ifdef __cplusplus
#define OCTALMURE_AS(type, value) static_cast<type>(value)
#define OCTALMURE_ADDRESS(pointer) reinterpret_cast<uintptr_t>(pointer)
extern "C" {
#else
#define OCTALMURE_AS(type, value) ((type)(value))
#define OCTALMURE_ADDRESS(pointer) ((uintptr_t)(pointer))
#endif

/* ---- sizes and limits ---- */

#define OCTALMURE_ANSWER_BYTES 20        /* the five numbers of an answer */
#define OCTALMURE_MOST_FILE_BYTES 12948  /* the longest run file that is read through; room enough for every one that is written */
#define OCTALMURE_MOST_TABLE_BYTES 33824 /* the longest text table; room enough for every one that is written */
#define OCTALMURE_MOST_LINE_BYTES 66     /* the longest line of a table: six numbers of ten digits, five commas, a line feed */
#define OCTALMURE_MOST_CHAIN_BYTES 2048  /* the longest chain, 512 record numbers of four bytes; room enough for every one */
#define OCTALMURE_MOST_CORES 16          /* N is 1 to 16 */
#define OCTALMURE_MOST_TASKS 32          /* a file has 1 to 32 tasks */
#define OCTALMURE_MOST_JOBS 512          /* all tasks together have at most 512 jobs, and a file or a table at most 512 records */
#define OCTALMURE_MOST_HORIZON 1000000   /* H is 1 to 1,000,000 ticks */
#define OCTALMURE_MOST_TICKS 1000000     /* so are P, B and W; O is 0 to 1,000,000; J is below P */

/* ---- what is answered ---- */

/* An answer is five numbers: the answer, a code, and three for the place. */
enum octalmure_answer_number {
    /* Accepted, no job late. Code 0. */
    OCTALMURE_NONE_LATE = 0,
    /* Accepted, some late job begins before H. Code: how many records are late, all of them. Place: the lowest-numbered late record
       that begins before H. */
    OCTALMURE_LATE_BEFORE_H = 1,
    /* Accepted, late jobs exist, none begins before H. Code: how many records are late. Place: the lowest-numbered late
       record. */
    OCTALMURE_LATE_FROM_H = 2,
    /* A rule is broken. Code: the lowest broken octalmure_rule. Place: the first at which it is broken, as is said there. */
    OCTALMURE_BROKEN = 3,
    /* Refused. Code: an octalmure_refusal. Place: the task, for OCTALMURE_REFUSAL_TASK_RANGE; the line of the table, counted from 1,
       for OCTALMURE_REFUSAL_BAD_LINE and OCTALMURE_REFUSAL_REPEATED_JOB. */
    OCTALMURE_REFUSED = 4,
    /* Written: a run that was carried or imported, or a table. Code: how many bytes were written to the output. */
    OCTALMURE_WRITTEN = 5,
    /* The same number, as what a carry answers. */
    OCTALMURE_CARRIED = 5,
    /* The chain of a record. Code: how many record numbers were written to the output. */
    OCTALMURE_CHAIN = 6
};

/* Codes of OCTALMURE_BROKEN, each with the numbers of its place. Records are counted from 0. Rules 7 and 8 ask when a job is ready: at
   the later of its release and the end of the job before it of its task, if there is one. */
enum octalmure_rule {
    OCTALMURE_RULE_JOBS = 1,       /* the first k at which the records and the existing jobs, in order, differ */
    OCTALMURE_RULE_RELEASE = 2,    /* record */
    OCTALMURE_RULE_START = 3,      /* record */
    OCTALMURE_RULE_LENGTH = 4,     /* record */
    OCTALMURE_RULE_CORE = 5,       /* record */
    OCTALMURE_RULE_NO_OVERLAP = 6, /* record a, record b; a < b */
    OCTALMURE_RULE_ORDER = 7,      /* record a, record b; a started first */
    OCTALMURE_RULE_NO_IDLING = 8,  /* record, instant, core */
    OCTALMURE_RULE_IN_TURN = 9,    /* record k; record k - 1 is the job before, and ends after k starts */
    OCTALMURE_RULES_END            /* no rule: the number after the last one */
};

/* Codes of OCTALMURE_REFUSED. A file is judged from the front, and the first fault met is the answer. 9 is for carrying, 10 for
   carrying and for a chain, 12 and 13 for an import, 14 for an export, 20 for a chain, 11 for each of these. 15 to 19 are not
   used. */
enum octalmure_refusal {
    OCTALMURE_REFUSAL_CUT_SHORT = 1,      /* the bytes end inside a count or a section */
    OCTALMURE_REFUSAL_SETTING_COUNT = 2,  /* the setting's count is not 2 */
    OCTALMURE_REFUSAL_SETTING_RANGE = 3,  /* N or H out of range */
    OCTALMURE_REFUSAL_TASK_COUNT = 4,     /* task count out of range */
    OCTALMURE_REFUSAL_TASK_RANGE = 5,     /* a task out of its ranges; the lowest-numbered one is the place */
    OCTALMURE_REFUSAL_TOO_MANY_JOBS = 6,  /* more than 512 jobs, at H or, when carrying, at H' */
    OCTALMURE_REFUSAL_RECORD_COUNT = 7,   /* a file's record count above 512, or a 513th record line of a table */
    OCTALMURE_REFUSAL_TRAILING_BYTES = 8, /* bytes after the last section */
    OCTALMURE_REFUSAL_NEW_HORIZON = 9,    /* H' below H or above 1,000,000 */
    OCTALMURE_REFUSAL_BROKEN_RUN = 10,    /* the run breaks a rule */
    OCTALMURE_REFUSAL_SHORT_OUTPUT = 11,  /* the output is too short */
    OCTALMURE_REFUSAL_BAD_LINE = 12,      /* a line that is not as a table's lines are; it is the place */
    OCTALMURE_REFUSAL_REPEATED_JOB = 13,  /* a line with a task and job that an earlier line has given; it is the place */
    OCTALMURE_REFUSAL_NOT_RISING = 14,    /* the records to be exported do not rise strictly by task and job */
    OCTALMURE_REFUSAL_NO_SUCH_RECORD = 20 /* there is no such record */
};

/* The five numbers. Numbers of the place that are not used are 0. */
struct octalmure_answer {
    uint32_t answer; /* an octalmure_answer_number */
    uint32_t code;
    uint32_t place[3];
};

/* ---- the five calls ---- */

/* What every call keeps to:
 * - It returns the answer number and writes the five numbers into the first 20 bytes of the answer slice. Bytes of the answer slice
 *   after the 20th never change.
 * - An answer slice of fewer than 20 bytes is met first of all: the call returns OCTALMURE_REFUSED, and no byte of any slice changes.
 * - The file and the table never change. What is written stands at the front of the output, and bytes of the output after it keep
 *   their values; a refusal changes no byte of the output.
 *
 * All this is proved, of slices. What no proof can see is whether a pointer and a length from C are one, so it is for the caller of
 * the five plain calls to see to it that
 * - each pointer leads to as many bytes as its length says, at most PTRDIFF_MAX; no pointer is null, even where the length is 0;
 * - the answer slice shares no byte with any other slice, and the output none with the file or the table. File and table may share
 *   bytes: both are only read.
 * Otherwise what a plain call does is not defined. The guarded calls below look for what can be seen of this.
 *
 * Nor does a proof see the stack: a call needs some, and 64 KiB are enough (tested). It uses no heap, no file and no variable that
 * outlives it, so calls may run side by side, each with its own output and answer.
 */

/* Checks the run in the file. Returns 0 to 4, OCTALMURE_NONE_LATE to OCTALMURE_REFUSED; the answer has the code and the place. */
uint32_t octalmure_check(const uint8_t *file, size_t file_length, uint8_t *answer, size_t answer_length);

/* Carries the run in the file to the horizon H', which is at least the file's H.
 * Carried: returns OCTALMURE_CARRIED, and the front of the output is the carried run as a whole file, of as many bytes as the code
 *   says: 20, and 20 for each task, and 24 for each job at H'.
 * Refused: returns OCTALMURE_REFUSED. A file that check refuses is refused in the same way; then come 9, 6 at H', 10 and 11, in this
 *   order. 10 does not tell which rule the run breaks; check does.
 */
uint32_t octalmure_carry(const uint8_t *file, size_t file_length, uint32_t horizon, uint8_t *output, size_t output_length,
                         uint8_t *answer, size_t answer_length);

/* Takes the setting and the tasks from the file and the records from a text table, and writes the run file of both. A table is the
 * header line "task,job,release,start,end,core" and then a line for each record, in any order: six numbers below 2^32 in decimal,
 * without leading zeros, a comma between two. Each line is closed by a line feed, the last one too.
 * Written: returns OCTALMURE_WRITTEN, and the front of the output is a whole run file, its records in rising order of task and job,
 *   of as many bytes as the code says: 20, and 20 for each task of the file, and 24 for each record of the table.
 * Refused: returns OCTALMURE_REFUSED. A file that check refuses is refused in the same way, also where the fault is in its records,
 *   which are not used otherwise. Then the table is judged line by line, each line for 12, 7 and 13 in turn before the next is read;
 *   11 comes last.
 * The run is not judged: a table may lack jobs, or have some that do not exist. Check finds that, by rule 1.
 */
uint32_t octalmure_import(const uint8_t *file, size_t file_length, const uint8_t *table, size_t table_length, uint8_t *output,
                          size_t output_length, uint8_t *answer, size_t answer_length);

/* Writes the records of the file as a text table, in the order of their starts, those with equal starts in the order of the file.
 * Written: returns OCTALMURE_WRITTEN, and the front of the output is the table, of as many bytes as the code says. An import of it
 *   with the same file gives that file back, byte by byte.
 * Refused: returns OCTALMURE_REFUSED. A file that check refuses is refused in the same way; then come 14 and 11, in this order.
 *   Whether the run obeys the rules is not asked.
 */
uint32_t octalmure_export(const uint8_t *file, size_t file_length, uint8_t *output, size_t output_length, uint8_t *answer,
                          size_t answer_length);

/* Tells for a record of an accepted run why its job began when it did: the chain of the jobs whose ends were waited for.
 * A job that started at its release waited for none and ends the chain. Otherwise the next of the chain is the preceding job of its
 * task, if that ended at this start, and else the job on the same core that ended at this start.
 * Told: returns OCTALMURE_CHAIN, and the front of the output is as many record numbers as the code says, four bytes each, low byte
 *   first: the record asked about, the one whose end it waited for, and so on back to the first job. No record stands there twice.
 *   The release of that first job and the lengths of all jobs of the chain add up to the end of the record asked about.
 * Refused: returns OCTALMURE_REFUSED. A file that check refuses is refused in the same way; then come 10, 20 and 11, in this order.
 *   10 does not tell which rule the run breaks; check does.
 */
uint32_t octalmure_why(const uint8_t *file, size_t file_length, uint32_t record, uint8_t *output, size_t output_length,
                       uint8_t *answer, size_t answer_length);

/* ---- the same calls, guarded ---- */

/* A guarded call returns OCTALMURE_REFUSED and touches no byte if
 * - a pointer is null and its length is not 0;
 * - a length is above PTRDIFF_MAX (as a negative number is, once it is a size_t), or leads past the last address;
 * - two of the slices share a byte and one of them is written: any two but the file and the table of an import.
 * Otherwise it does what the plain call does. A slice of length 0 shares no byte, and its pointer may be null. Whether a pointer
 * leads to memory of its length cannot be seen: that remains for the caller.
 *
 * To tell "nothing was judged" from a refusal, set the answer to zeros first: its first number is then not the one that is returned.
 */

/* 1 if this can be a slice, as far as its two numbers show. */
static inline int octalmure_is_slice(const uint8_t *pointer, size_t length) {
    if (!pointer) {
        return length == 0;
    }
    return length <= PTRDIFF_MAX && length <= UINTPTR_MAX - OCTALMURE_ADDRESS(pointer);
}

/* 1 if two slices share no byte. The addresses are compared as numbers: C defines no order between pointers to different things. */
static inline int octalmure_apart(const uint8_t *a, size_t a_length, const uint8_t *b, size_t b_length) {
    uintptr_t from_a = OCTALMURE_ADDRESS(a), from_b = OCTALMURE_ADDRESS(b);
    return a_length == 0 || b_length == 0 || from_a + a_length <= from_b || from_b + b_length <= from_a;
}

/* 1 if these can be slices and share no byte: what is only read, the output and the answer. */
static inline int octalmure_lendable(const uint8_t *source, size_t source_length, const uint8_t *output, size_t output_length,
                                     const uint8_t *answer, size_t answer_length) {
    return octalmure_is_slice(source, source_length) && octalmure_is_slice(output, output_length) &&
           octalmure_is_slice(answer, answer_length) && octalmure_apart(source, source_length, output, output_length) &&
           octalmure_apart(source, source_length, answer, answer_length) && octalmure_apart(output, output_length, answer, answer_length);
}

static inline uint32_t octalmure_guarded_check(const uint8_t *file, size_t file_length, uint8_t *answer, size_t answer_length) {
    uint8_t nothing = 0; /* stands for a null pointer of length 0: the plain calls take none */
    if (!octalmure_is_slice(file, file_length) || !octalmure_is_slice(answer, answer_length) ||
        !octalmure_apart(file, file_length, answer, answer_length)) {
        return OCTALMURE_REFUSED;
    }
    return octalmure_check(file ? file : &nothing, file_length, answer ? answer : &nothing, answer_length);
}

static inline uint32_t octalmure_guarded_carry(const uint8_t *file, size_t file_length, uint32_t horizon, uint8_t *output,
                                               size_t output_length, uint8_t *answer, size_t answer_length) {
    uint8_t nothing = 0;
    if (!octalmure_lendable(file, file_length, output, output_length, answer, answer_length)) {
        return OCTALMURE_REFUSED;
    }
    return octalmure_carry(file ? file : &nothing, file_length, horizon, output ? output : &nothing, output_length,
                           answer ? answer : &nothing, answer_length);
}

static inline uint32_t octalmure_guarded_import(const uint8_t *file, size_t file_length, const uint8_t *table, size_t table_length,
                                                uint8_t *output, size_t output_length, uint8_t *answer, size_t answer_length) {
    uint8_t nothing = 0;
    if (!octalmure_lendable(file, file_length, output, output_length, answer, answer_length) ||
        !octalmure_lendable(table, table_length, output, output_length, answer, answer_length)) {
        return OCTALMURE_REFUSED;
    }
    return octalmure_import(file ? file : &nothing, file_length, table ? table : &nothing, table_length, output ? output : &nothing,
                            output_length, answer ? answer : &nothing, answer_length);
}

static inline uint32_t octalmure_guarded_export(const uint8_t *file, size_t file_length, uint8_t *output, size_t output_length,
                                                uint8_t *answer, size_t answer_length) {
    uint8_t nothing = 0;
    if (!octalmure_lendable(file, file_length, output, output_length, answer, answer_length)) {
        return OCTALMURE_REFUSED;
    }
    return octalmure_export(file ? file : &nothing, file_length, output ? output : &nothing, output_length,
                            answer ? answer : &nothing, answer_length);
}

static inline uint32_t octalmure_guarded_why(const uint8_t *file, size_t file_length, uint32_t record, uint8_t *output,
                                             size_t output_length, uint8_t *answer, size_t answer_length) {
    uint8_t nothing = 0;
    if (!octalmure_lendable(file, file_length, output, output_length, answer, answer_length)) {
        return OCTALMURE_REFUSED;
    }
    return octalmure_why(file ? file : &nothing, file_length, record, output ? output : &nothing, output_length,
                         answer ? answer : &nothing, answer_length);
}

/* ---- numbers, and reading an answer ---- */

/* The four bytes there as a number, low byte first: as numbers stand in an answer, in a chain and in a run file. The library reads
   them with the same lines: docs/FORMAT.md lays the two side by side. */
static inline uint32_t octalmure_number(const uint8_t *bytes) {
    uint32_t a = bytes[0];
    uint32_t b = bytes[1];
    uint32_t c = bytes[2];
    uint32_t d = bytes[3];
    return a | b << 8 | c << 16 | d << 24;
}

/* The five numbers of OCTALMURE_ANSWER_BYTES bytes. */
static inline struct octalmure_answer octalmure_decode(const uint8_t *bytes) {
    struct octalmure_answer decoded;
    decoded.answer = octalmure_number(bytes);
    decoded.code = octalmure_number(bytes + 4);
    decoded.place[0] = octalmure_number(bytes + 8);
    decoded.place[1] = octalmure_number(bytes + 12);
    decoded.place[2] = octalmure_number(bytes + 16);
    return decoded;
}

/* What a rule says, for a message; "no such rule" for a number that is none. */
static inline const char *octalmure_rule_text(uint32_t rule) {
    switch (rule) {
    case OCTALMURE_RULE_JOBS: return "the records are exactly the existing jobs, in order";
    case OCTALMURE_RULE_RELEASE: return "jP + O <= r <= jP + O + J";
    case OCTALMURE_RULE_START: return "r <= s";
    case OCTALMURE_RULE_LENGTH: return "s <= e and B <= e - s <= W";
    case OCTALMURE_RULE_CORE: return "a core is 1 to N";
    case OCTALMURE_RULE_NO_OVERLAP: return "of two records on one core, one ends no later than the other starts";
    case OCTALMURE_RULE_ORDER: return "if a starts before b, its deadline is no later, or it starts before b is ready";
    case OCTALMURE_RULE_NO_IDLING: return "from when a record is ready until it starts, every core is busy";
    case OCTALMURE_RULE_IN_TURN: return "no job starts before the one before it of its task has ended";
    default: return "no such rule";
    }
}

/* When a refusal is given, for a message; "no such refusal" for a number that is none. */
static inline const char *octalmure_refusal_text(uint32_t refusal) {
    switch (refusal) {
    case OCTALMURE_REFUSAL_CUT_SHORT: return "the bytes end inside a count or a section";
    case OCTALMURE_REFUSAL_SETTING_COUNT: return "the setting's count is not 2";
    case OCTALMURE_REFUSAL_SETTING_RANGE: return "N or H out of range";
    case OCTALMURE_REFUSAL_TASK_COUNT: return "task count out of range";
    case OCTALMURE_REFUSAL_TASK_RANGE: return "a task out of its ranges";
    case OCTALMURE_REFUSAL_TOO_MANY_JOBS: return "more than 512 jobs";
    case OCTALMURE_REFUSAL_RECORD_COUNT: return "more than 512 records";
    case OCTALMURE_REFUSAL_TRAILING_BYTES: return "bytes after the last section";
    case OCTALMURE_REFUSAL_NEW_HORIZON: return "the new horizon is below H or above 1,000,000";
    case OCTALMURE_REFUSAL_BROKEN_RUN: return "the run breaks a rule";
    case OCTALMURE_REFUSAL_SHORT_OUTPUT: return "a lent output is too short";
    case OCTALMURE_REFUSAL_BAD_LINE: return "a bad line in the table";
    case OCTALMURE_REFUSAL_REPEATED_JOB: return "a task and job already given by an earlier line of the table";
    case OCTALMURE_REFUSAL_NOT_RISING: return "the records do not rise strictly by task and job";
    case OCTALMURE_REFUSAL_NO_SUCH_RECORD: return "there is no such record";
    default: return "no such refusal";
    }
}

/* ---- making and reading a run file ---- */

/* A run file is the setting, the tasks and the records, each section after its count; every number is of four bytes, low byte first.
 * To make one, put into a room of OCTALMURE_FILE_BYTES(tasks, records) bytes, one after the other:
 *   the setting; the number of tasks, and each task; the number of records, and each record.
 * Each function writes at a place and gives the place after what it wrote, which must be in the caller's room. Nothing is judged
 * here: octalmure_check does that.
 */

#define OCTALMURE_NUMBER_BYTES 4
#define OCTALMURE_SETTING_BYTES 12 /* the setting's count, N and H */
#define OCTALMURE_TASK_BYTES 20
#define OCTALMURE_RECORD_BYTES 24

struct octalmure_setting {
    uint32_t cores;   /* N */
    uint32_t horizon; /* H */
};

struct octalmure_task {
    uint32_t period;   /* P */
    uint32_t least;    /* B */
    uint32_t greatest; /* W */
    uint32_t offset;   /* O */
    uint32_t jitter;   /* J */
};

struct octalmure_record {
    uint32_t task;
    uint32_t job;
    uint32_t release; /* r */
    uint32_t start;   /* s */
    uint32_t end;     /* e */
    uint32_t core;
};

/* How long a file of so many tasks and records is. Files of at most 32 and 512 are read through. */
#define OCTALMURE_FILE_BYTES(tasks, records)                                                                                    \
    (OCTALMURE_SETTING_BYTES + OCTALMURE_NUMBER_BYTES + OCTALMURE_TASK_BYTES * (tasks) + OCTALMURE_NUMBER_BYTES +              \
     OCTALMURE_RECORD_BYTES * (records))

static inline uint8_t *octalmure_put_number(uint8_t *at, uint32_t number) {
    at[0] = OCTALMURE_AS(uint8_t, number & 255);
    at[1] = OCTALMURE_AS(uint8_t, number >> 8 & 255);
    at[2] = OCTALMURE_AS(uint8_t, number >> 16 & 255);
    at[3] = OCTALMURE_AS(uint8_t, number >> 24);
    return at + OCTALMURE_NUMBER_BYTES;
}

/* The setting with the count before it, 2. */
static inline uint8_t *octalmure_put_setting(uint8_t *at, struct octalmure_setting setting) {
    at = octalmure_put_number(at, 2);
    at = octalmure_put_number(at, setting.cores);
    return octalmure_put_number(at, setting.horizon);
}

static inline uint8_t *octalmure_put_task(uint8_t *at, struct octalmure_task task) {
    at = octalmure_put_number(at, task.period);
    at = octalmure_put_number(at, task.least);
    at = octalmure_put_number(at, task.greatest);
    at = octalmure_put_number(at, task.offset);
    return octalmure_put_number(at, task.jitter);
}

static inline uint8_t *octalmure_put_record(uint8_t *at, struct octalmure_record record) {
    at = octalmure_put_number(at, record.task);
    at = octalmure_put_number(at, record.job);
    at = octalmure_put_number(at, record.release);
    at = octalmure_put_number(at, record.start);
    at = octalmure_put_number(at, record.end);
    return octalmure_put_number(at, record.core);
}

/* The task of the OCTALMURE_TASK_BYTES bytes there. */
static inline struct octalmure_task octalmure_task_at(const uint8_t *bytes) {
    struct octalmure_task task;
    task.period = octalmure_number(bytes);
    task.least = octalmure_number(bytes + 4);
    task.greatest = octalmure_number(bytes + 8);
    task.offset = octalmure_number(bytes + 12);
    task.jitter = octalmure_number(bytes + 16);
    return task;
}

/* The record of the OCTALMURE_RECORD_BYTES bytes there. */
static inline struct octalmure_record octalmure_record_at(const uint8_t *bytes) {
    struct octalmure_record record;
    record.task = octalmure_number(bytes);
    record.job = octalmure_number(bytes + 4);
    record.release = octalmure_number(bytes + 8);
    record.start = octalmure_number(bytes + 12);
    record.end = octalmure_number(bytes + 16);
    record.core = octalmure_number(bytes + 20);
    return record;
}

#ifdef __cplusplus
}
#endif

#endif
