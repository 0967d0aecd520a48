/*
 * Memory as it is lent to the library: at the edge of pages that cannot be touched, guard bytes on the open side. Each
 * run has two more copies: `own`, that the reference works on, and `before`, what was lent.
 */
#ifndef LENT_H
#define LENT_H

#include <stddef.h>
#include <stdint.h>

typedef struct {
    const char *name;
    size_t unit;    /* bytes of an element */
    size_t room;    /* most bytes that can be lent */
    uint8_t *pages; /* the pages that can be touched */
    size_t pages_bytes;
    uint8_t *own, *before;
    uint8_t *at; /* what the library is lent; null at times if it is empty */
    size_t bytes;
    int at_end; /* it ends at the end of the pages; else it starts at their start */
} lent;

void lent_make(lent *l, const char *name, size_t unit, size_t most);

/* Lends so many elements; `own` has their content. */
void lend(lent *l, size_t elements);

/* Holds what the library left to the reference's copy. Says the first difference; gives 1 if there is one. */
int lent_differs(const lent *l);

/* Prints what was lent, up to so many elements. */
void lent_show(const lent *l, size_t most);

#endif
