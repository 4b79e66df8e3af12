/* A guarded call over slices that stand anywhere in one room of bytes, judged against the plain call and byte by byte. */
#ifndef OCTALMURE_TRIAL_H
#define OCTALMURE_TRIAL_H

#include <stdbool.h>
#include <stddef.h>
#include <stdint.h>

enum { ROOM = 1600 };

typedef enum { CHECK, CARRY, IMPORT, EXPORT, WHY, KINDS } Kind;
/* The slices that a call may have: those that are read, and from OUTPUT on those that are written. */
typedef enum { RUN, TABLE, OUTPUT, ANSWER, PARTS } Part;

typedef struct {
    size_t at, length; /* where it stands in the room */
    bool null;         /* the pointer is null instead */
} Slice;

typedef struct {
    Kind kind;
    uint32_t number; /* the horizon of a carry, the record of a why */
    Slice slices[PARTS];
} Call;

typedef struct {
    uint8_t *pointer;
    size_t length;
} Lent;

typedef struct {
    unsigned long passed, failed, guarded; /* guarded: stopped by the guard, as it must be */
} Count;

void count(Count *sum, bool right, const char *what);

/* Whether calls of this kind have such a slice. */
bool has(Kind kind, Part part);
uint32_t call_guarded(Kind kind, const Lent lent[PARTS], uint32_t number);
/* Tries the call; the contents stand where the slices that are read do, as far as their lengths go. */
void try_call(Count *sum, const Call *call, const Lent contents[OUTPUT]);

/* The other tests of the program. */
void try_answers(Count *sum);
void try_small_stack(Count *sum, const uint8_t *file, size_t length);
void try_whys(Count *sum, const uint8_t *c2, size_t c2_length);
/* The files are C2 and C9. */
void try_making(Count *sum, const uint8_t *c2, size_t c2_length, const uint8_t *c9, size_t c9_length);

#endif
