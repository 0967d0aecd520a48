/* Making groups: a list is put down number by number, and then damaged or not; every kind of fault comes up often. */
#include "groups.h"

#include <string.h>

#include "random.h"

static groups *to;

static void put(uint32_t byte) {
    if (to->bytes < MOST_GROUPS) to->byte[to->bytes++] = (uint8_t)byte;
}

static void put_number(uint64_t number) {
    for (; number > 127; number >>= 7) put(128 | (uint32_t)(number & 127));
    put((uint32_t)number);
}

static void put_list_number(uint64_t elements) { put_number(2 * elements + 1); }

/* An atom at an edge of its number of groups, a small one, or any. */
static void put_atom(void) {
    static const uint32_t edge[] = {0,       63,      64,      127,       128,       8191,      8192,
                                    1048575, 1048576, 2097151, 134217727, 134217728, 4294967294, 4294967295};
    to->extent++;
    switch (below(4)) {
    case 0: put_number(2 * (uint64_t)edge[below(sizeof edge / sizeof edge[0])]); break;
    case 1: put_number(2 * (uint64_t)any_word()); break;
    default: put_number(2 * (uint64_t)below(64)); break;
    }
}

/* Puts a list of up to `budget` elements in all, and gives what is left of them. */
static uint32_t put_list(uint32_t budget, uint32_t lists, uint32_t widest) {
    uint32_t elements = chance(20) ? 0 : 1 + below(widest);
    if (elements > budget) elements = budget;
    put_list_number(elements);
    budget -= elements;
    for (uint32_t i = 0; i < elements; i++) {
        if (!chance(lists)) {
            put_atom();
            continue;
        }
        to->extent++;
        budget = put_list(budget, lists, widest);
    }
    return budget;
}

static void put_flat(uint32_t elements, uint32_t atom) {
    put_list_number(elements);
    for (uint32_t i = 0; i < elements; i++) put_number(2 * (uint64_t)atom);
    to->extent += elements;
}

/* About 200 levels, each with one element or with a claim of many more; at times level 201 at the bottom. */
static void put_deep(void) {
    uint32_t levels = from_to(197, 202), claims = chance(20);
    for (uint32_t i = 0; i < levels; i++) put_list_number(claims && chance(10) ? any_word() : 1);
    to->extent += levels;
    switch (below(6)) {
    case 0: put_number(0); break;
    case 1: put_list_number(0); break;
    case 2: put_list_number(any_word()); break;
    case 3: /* a list's number in a group too many */
        put(131);
        put(0);
        break;
    case 4: /* a list's number of 2^33 and more */
        put_number(8589934593 + 2 * (uint64_t)any_word());
        break;
    default: break;
    }
}

/* Lists at the limits of bytes, of characters in text and of cells. */
static void put_large(void) {
    uint32_t atom = below(8);
    switch (below(5)) {
    case 0: put_flat(from_to(65514, 65519), atom); break;
    case 1: put_flat(from_to(32755, 32763), atom); break;
    case 2: put_flat(from_to(3990, 4005), atom < 4 ? atom : 4294967295 - atom); break;
    case 3: put_list(5000, 20, 60); break;
    default: put_list(60000, 10, 9000); break;
    }
}

/* Puts bytes in at a place, up to the most that there can be. */
static void insert(groups *g, size_t at, const uint8_t *byte, size_t bytes) {
    if (g->bytes + bytes > MOST_GROUPS) return;
    memmove(g->byte + at + bytes, g->byte + at, g->bytes - at);
    memcpy(g->byte + at, byte, bytes);
    g->bytes += bytes;
}

static void cut(groups *g, size_t at, size_t bytes) {
    if (at + bytes > g->bytes) return;
    memmove(g->byte + at, g->byte + at + bytes, g->bytes - at - bytes);
    g->bytes -= bytes;
}

/* Changes a number or the bytes behind it; `used` bytes have the list. */
static void damage_groups(groups *g, size_t used) {
    static const uint8_t too_large[] = {128, 128, 128, 128, 32}, odd_and_too_large[] = {255, 255, 255, 255, 63},
                         claim[] = {255, 255, 255, 255, 31};
    size_t at = below((uint32_t)used);
    if (g->bytes == 0) return;
    switch (below(12)) {
    case 0: /* one group more than needed, behind a number's last */
        while (at < used && g->byte[at] >= 128) at++;
        if (at == used) return;
        g->byte[at] |= 128;
        insert(g, at + 1, (uint8_t[]){0}, 1);
        break;
    case 1: insert(g, at, too_large, 5); break;
    case 2: insert(g, at, odd_and_too_large, 5); break;
    case 3: insert(g, at, claim, 5); break;
    case 4: g->byte[0] ^= 1; break;
    case 5: g->bytes = at; break;
    case 6: cut(g, at, 1); break;
    case 7: g->byte[at] ^= 128; break;
    case 8: g->byte[at] = (uint8_t)below(256); break;
    case 9: g->byte[at] ^= (uint8_t)(1 << below(8)); break;
    case 10: insert(g, at, (uint8_t[]){(uint8_t)below(256)}, 1); break;
    default: /* a number of many groups */
        for (uint32_t k = from_to(1, 9); k > 0; k--) insert(g, at, (uint8_t[]){128}, 1);
        break;
    }
}

void make_groups(groups *g, int large) {
    uint32_t kind = below(100), lists = from_to(5, 74), widest = chance(90) ? 4 : 40, flat = from_to(60, 70);
    to = g;
    g->bytes = 0;
    g->extent = 0;
    if (large) put_large();
    else if (kind < 70) put_list(chance(85) ? below(12) : below(60), lists, widest);
    else if (kind < 80) put_deep();
    else if (kind < 86) put_list(0, 0, 1);
    else if (kind < 92) put_flat(flat, below(130));
    else fill_random(g->byte, g->bytes = from_to(1, 8));
    size_t used = g->bytes;
    if (chance(30)) /* bytes behind the list */
        for (uint32_t k = from_to(1, 9); k > 0; k--) put(below(256));
    if (chance(40)) damage_groups(g, used);
    if (chance(8) && g->bytes >= used) damage_groups(g, used);
    if (chance(2)) g->bytes = 0;
    if (chance(large ? 4 : 1)) { /* as many bytes as there can be, or one more */
        uint32_t bytes = from_to(65519, 65521);
        if (bytes > g->bytes) memset(g->byte + g->bytes, chance(50) ? 0 : 255, bytes - g->bytes);
        g->bytes = bytes;
    }
}
