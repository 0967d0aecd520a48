/* Tables to try the calls on: sound ones of many shapes, and damaged ones. */
#ifndef TABLES_H
#define TABLES_H

#include <stdint.h>

/* Words of a table: cell c's type, element, count and successor; holder h; the first free cell. */
#define TYPE(t, c) ((t)[66 + 4 * ((c)-1)])
#define ELEMENT(t, c) ((t)[66 + 4 * ((c)-1) + 1])
#define COUNT(t, c) ((t)[66 + 4 * ((c)-1) + 2])
#define SUCCESSOR(t, c) ((t)[66 + 4 * ((c)-1) + 3])
#define HOLDS(t, h) ((t)[2 + (h)])
#define FREE(t) ((t)[1])

/* Each makes a whole table of n cells, 1 to 4,000. */
void make_sound(uint32_t *t, uint32_t n);  /* cells that point at later ones in some order */
void make_ladder(uint32_t *t, uint32_t n); /* each cell's element is its own tail */
void make_deep(uint32_t *t, uint32_t n,
               uint32_t to); /* one list of `to` levels, n >= to + 4, some characters before it */
void make_long(uint32_t *t, uint32_t n,
               uint32_t to);              /* one list of `to` characters in its text, n >= 300, 65,000 to 66,000 */
void make_noise(uint32_t *t, uint32_t n); /* small numbers in no order, seldom sound */

/* Changes a table of n cells in one of many ways, and leaves word 0; most leave it unsound, some do not. */
void damage(uint32_t *t, uint32_t n);

#endif
