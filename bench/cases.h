/* The cases that are measured: for each a table, a script, a text or groups, and the call that is made with them. */
#ifndef CASES_H
#define CASES_H

#include "tabeshilo.h"

enum { TABLE = 66 + 4 * TAB_CELLS, WORK = 2 * TAB_CELLS, SCRIPT = 4 * TAB_OPERATIONS, RESULTS = 2 * TAB_OPERATIONS };

/* The calls of one implementation. */
typedef struct {
    uint32_t (*set_up)(uint32_t *, size_t, uint32_t);
    tab_outcome (*run)(uint32_t *, size_t, uint32_t *, size_t, const uint32_t *, size_t, uint32_t *, size_t);
    tab_outcome (*read)(uint32_t *, size_t, uint32_t *, size_t, uint32_t, const uint8_t *, size_t);
    tab_outcome (*write)(const uint32_t *, size_t, uint32_t *, size_t, uint32_t, uint8_t *, size_t);
    tab_outcome (*check)(const uint8_t *, size_t);
    size_t (*rest)(const uint8_t *, size_t);
    tab_outcome (*read_groups)(uint32_t *, size_t, uint32_t *, size_t, uint32_t, const uint8_t *, size_t);
    tab_outcome (*write_groups)(const uint32_t *, size_t, uint32_t *, size_t, uint32_t, uint8_t *, size_t);
    tab_moved (*to_groups)(const uint8_t *, size_t, uint8_t *, size_t);
    tab_moved (*to_text)(const uint8_t *, size_t, uint8_t *, size_t);
} calls;

enum call { SET_UP, RUN, READ, WRITE, CHECK, REST, READ_GROUPS, WRITE_GROUPS, TO_GROUPS, TO_TEXT, CALLS };

/* What a call is lent. The table is as it is before the call. */
typedef struct {
    uint32_t table[TABLE], script[SCRIPT];
    uint8_t text[TAB_TEXT]; /* or groups */
    size_t operations, bytes;
} given;

/* What a call leaves. */
typedef struct {
    uint32_t table[TABLE], work[WORK], results[RESULTS];
    uint8_t out[TAB_TEXT];
    tab_moved outcome;
} left;

typedef struct {
    const char *name;
    void (*make)(given *g, uint32_t cells);
    uint32_t cells;
    enum call call;
    int times;       /* calls made one after the other on one copy of the table */
    uint32_t answer; /* that must come */
} bench_case;

extern const bench_case cases[];
extern const int number_of_cases;

/* Puts what is given before the call in `l`; makes the call. */
void put_before(const given *g, left *l);
void make_call(const calls *of, enum call call, const given *g, left *l);

#endif
