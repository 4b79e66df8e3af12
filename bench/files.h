/* The files that are timed. They are made here, the same on every machine. */
#ifndef OCTALMURE_BENCH_FILES_H
#define OCTALMURE_BENCH_FILES_H

#include <stddef.h>
#include <stdint.h>

enum { MOST_FILE_BYTES = 13000, MOST_TABLE_BYTES = 34000 };

typedef struct {
    uint8_t bytes[MOST_FILE_BYTES];
    size_t length;
    uint32_t horizon; /* of the run */
} File;

typedef struct {
    uint8_t bytes[MOST_TABLE_BYTES];
    size_t length;
} Table;

/* How busy the cores are: half of what they can do, so that no job is late, or three times that, so that jobs wait ever longer. In
   chains they are half busy too, but by few tasks: most jobs take longer than their period, and the next one waits for the end. */
typedef enum { HALF_BUSY, OVERLOADED, IN_CHAINS } Load;

/* Where a fault stands: as near to the first record as one can be put, or to the last. */
typedef enum { AT_THE_FRONT, AT_THE_BACK } Where;

/* In which order the lines of a table stand: as export writes them, as the records stand in the file, or neither. */
typedef enum { BY_START, BY_JOB, IN_NO_ORDER } Order;

/* A permitted run of 32 tasks; of half as many tasks as there are cores in chains, where the cores are 2, 4, 8 or 16. The records
   are 64, 128, 256 or 512. */
void permitted_file(uint32_t records, uint32_t cores, Load load, File *file);
/* The first part of that run: half as many records, recorded up to half of its horizon. */
void half_file(uint32_t records, uint32_t cores, Load load, File *file);
/* A run that breaks just this rule, and no lower one. On one core none breaks rule 9. */
void broken_file(uint32_t records, uint32_t cores, uint32_t rule, Where where, File *file);
/* 512 records that fall behind ever farther: each waits for the one before it, all of them one chain. Of one task through its jobs,
   on any of the cores; of 32 tasks on one core through the core. */
void behind_file(uint32_t cores, uint32_t tasks, File *file);
/* The paper's first run: five records. */
void worked_file(File *file);
/* 512 records in which every number has ten digits: their table is the longest. */
void longest_lines_file(File *file);
/* A run without a record. */
void empty_run_file(File *file);
/* The record with the longest chain of an accepted run, and the first one that started at its release. */
uint32_t longest_chain(const File *file);
uint32_t first_at_release(const File *file);

/* The records of a file, which is one of those above, as a table. */
void table_of(const File *file, Order order, Table *table);
/* The same, with some line bad or a job given again in the last line; a file whose last two records are exchanged. */
void spoil_line(uint32_t line, Table *table);
void repeat_first_job(Table *table);
void exchange_last_two(File *file);

#endif
