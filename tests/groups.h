/* Groups to try the calls on: lists of many shapes, and damaged ones. */
#ifndef GROUPS_H
#define GROUPS_H

#include <stddef.h>
#include <stdint.h>

enum { MOST_GROUPS = 65600 };

typedef struct {
    uint8_t byte[MOST_GROUPS];
    size_t bytes;
    uint32_t extent; /* of the list, before any damage: the cells that it needs */
} groups;

/* Makes groups. Most have up to some 60 bytes; `large` ones may have as many as there can be, or a few more. */
void make_groups(groups *g, int large);

#endif
