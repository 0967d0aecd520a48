/* Making tables. A sound one: the cells in some order, each pointing only at later ones, so that no ring can be; the
   count of a cell is known when its turn comes, and a cell that nobody named by then is free. */
#include "tables.h"

#include "random.h"

static uint32_t order[4000]; /* the cells in the order chosen */

static void choose_order(uint32_t n) {
    for (uint32_t i = 0; i < n; i++) order[i] = i + 1;
    if (chance(20)) return;
    for (uint32_t i = n; i > 1; i--) {
        uint32_t j = below(i), c = order[i - 1];
        order[i - 1] = order[j];
        order[j] = c;
    }
}

/* Chains the cells with count 0 in the order chosen, and gives some of them old words. */
static void chain_free(uint32_t *t, uint32_t n) {
    int old_words = chance(50);
    uint32_t head = 0;
    for (uint32_t i = n; i-- > 0;) {
        uint32_t c = order[i];
        if (COUNT(t, c) != 0) continue;
        SUCCESSOR(t, c) = head;
        head = c;
        if (old_words && chance(70)) {
            TYPE(t, c) = chance(50) ? below(3) : any_word();
            ELEMENT(t, c) = chance(50) ? below(n + 2) : any_word();
        }
    }
    FREE(t) = head;
}

static void clear(uint32_t *t, uint32_t n) {
    memset(t, 0, (66 + 4 * (size_t)n) * sizeof *t);
    t[0] = n;
}

/* Names a cell: 0, or one that counts it. */
static uint32_t name(uint32_t *t, uint32_t c) {
    if (c != 0) COUNT(t, c)++;
    return c;
}

void make_sound(uint32_t *t, uint32_t n) {
    static const uint32_t spans[] = {1, 1, 2, 3, 6, 4000};
    uint32_t span = spans[below(6)], ends = below(30), lists = 10 + below(80), pulled = chance(20) ? 40 : 0;
    uint32_t holders = chance(8) ? 64 : 1 + below(8), start = chance(50) ? n : 1 + below(n), last;
    clear(t, n);
    choose_order(n);
    last = order[n - 1];
    for (uint32_t h = 0; h < holders; h++) {
        if (chance(15)) continue;
        uint32_t c = chance(30) ? order[0] : order[below(start)];
        HOLDS(t, holders == 64 ? h : below(64)) = name(t, c);
    }
    /* a holder may have been named twice: count again */
    for (uint32_t c = 1; c <= n; c++) COUNT(t, c) = 0;
    for (uint32_t h = 0; h < 64; h++) name(t, HOLDS(t, h));
    for (uint32_t i = 0; i < n; i++) {
        uint32_t c = order[i];
        if (COUNT(t, c) == 0) continue;
        for (int arrow = 0; arrow < 2; arrow++) {
            uint32_t to = i + 1 + below(span < n ? span : n);
            uint32_t d = to < n ? order[to] : 0;
            if (d != 0 && chance(pulled)) d = last;
            if (chance(ends)) d = 0;
            if (arrow == 0) {
                SUCCESSOR(t, c) = name(t, d);
            } else if (chance(lists)) {
                TYPE(t, c) = 1;
                ELEMENT(t, c) = name(t, d);
            } else {
                ELEMENT(t, c) = any_word();
            }
        }
    }
    chain_free(t, n);
}

void make_ladder(uint32_t *t, uint32_t n) {
    uint32_t rungs = chance(50) ? n : 1 + below(n);
    clear(t, n);
    choose_order(n);
    HOLDS(t, below(64)) = name(t, order[0]);
    for (uint32_t i = 0; i < rungs; i++) {
        uint32_t d = i + 1 < rungs ? order[i + 1] : 0;
        TYPE(t, order[i]) = 1;
        SUCCESSOR(t, order[i]) = name(t, d);
        ELEMENT(t, order[i]) = name(t, d);
    }
    chain_free(t, n);
}

/* Two atoms come first: with 7 digits and 6 to 8, level 201 opens at the edge of the third record or beside it. */
void make_deep(uint32_t *t, uint32_t n, uint32_t to) {
    uint32_t k = 0;
    clear(t, n);
    choose_order(n);
    HOLDS(t, below(64)) = name(t, order[0]);
    if (chance(70)) {
        for (uint32_t atoms = 0; atoms < 2; atoms++) {
            ELEMENT(t, order[k]) = 1u << (3 * (atoms == 0 ? 6 : 5 + below(3)));
            SUCCESSOR(t, order[k]) = name(t, order[k + 1]);
            k++;
        }
    }
    for (uint32_t level = 1; level < to; level++) {
        TYPE(t, order[k]) = 1;
        if (level + 1 < to) ELEMENT(t, order[k]) = name(t, order[k + 1]);
        k++;
    }
    chain_free(t, n);
}

/* Most elements are one list of 30 long atoms, shared; atoms fill the text up to its length. */
void make_long(uint32_t *t, uint32_t n, uint32_t to) {
    enum { ATOMS = 30, CHARACTERS = 2 + 11 * ATOMS + ATOMS - 1 };
    uint32_t k = ATOMS, left = to - 2, last = 0;
    clear(t, n);
    choose_order(n);
    for (uint32_t i = 0; i < ATOMS; i++) {
        ELEMENT(t, order[i]) = 0xFFFFFFFF - i;
        if (i > 0) SUCCESSOR(t, order[i - 1]) = name(t, order[i]);
    }
    while (left > 0) {
        uint32_t c = order[k++], used;
        if (last == 0) HOLDS(t, below(64)) = name(t, c);
        else SUCCESSOR(t, last) = name(t, c);
        last = c;
        if (left > CHARACTERS + 20) {
            used = CHARACTERS;
            TYPE(t, c) = 1;
            ELEMENT(t, c) = name(t, order[0]);
        } else {
            used = left <= 10 ? left : 5;
            ELEMENT(t, c) = 1u << (3 * (used - 1));
        }
        left -= used;
        if (left > 0) left--; /* the comma */
    }
    chain_free(t, n);
}

void make_noise(uint32_t *t, uint32_t n) {
    clear(t, n);
    FREE(t) = below(n + 2);
    for (uint32_t h = 0; h < 64; h++) HOLDS(t, h) = chance(4) ? below(n + 2) : 0;
    for (uint32_t c = 1; c <= n; c++) {
        TYPE(t, c) = below(chance(10) ? 3 : 2);
        ELEMENT(t, c) = below(n + 2);
        COUNT(t, c) = below(4);
        SUCCESSOR(t, c) = below(n + 2);
    }
}

/* ---- Damage */

static uint32_t another(uint32_t old, uint32_t n) {
    switch (below(8)) {
    case 0: return old + 1;
    case 1: return old - 1;
    case 2: return 0;
    case 3: return n + below(3);
    case 4: return any_word();
    default: return 1 + below(n);
    }
}

/* Some live cell if a few tries find one, else any cell. */
static uint32_t some_cell(const uint32_t *t, uint32_t n, int live) {
    uint32_t c = 1 + below(n);
    for (int tries = 0; tries < 20 && (COUNT(t, c) != 0) != live; tries++) c = 1 + below(n);
    return c;
}

static int is_cell(const uint32_t *t, uint32_t c) { return c >= 1 && c <= t[0]; }

/* Moves an arrow, and keeps the counts in step with it. */
static void move_arrow(uint32_t *t, uint32_t *arrow, uint32_t to) {
    if (is_cell(t, *arrow)) COUNT(t, *arrow)--;
    *arrow = to;
    COUNT(t, to)++;
}

/* One to three cells off the free chain, in a ring that nobody else names, with right counts. */
static void lost_ring(uint32_t *t) {
    uint32_t ring[3], k = 0, wanted = 1 + below(3);
    while (k < wanted && is_cell(t, FREE(t))) {
        ring[k++] = FREE(t);
        FREE(t) = SUCCESSOR(t, FREE(t));
    }
    for (uint32_t i = 0; i < k; i++) {
        int by_element = chance(50);
        uint32_t to = ring[(i + 1) % k];
        TYPE(t, ring[i]) = (uint32_t)by_element;
        ELEMENT(t, ring[i]) = by_element ? to : any_word();
        SUCCESSOR(t, ring[i]) = by_element ? 0 : to;
        COUNT(t, ring[i]) = 1;
    }
}

static void damage_free_chain(uint32_t *t, uint32_t n) {
    uint32_t c = some_cell(t, n, 0);
    if (COUNT(t, c) != 0) return;
    switch (below(5)) {
    case 0: SUCCESSOR(t, c) = some_cell(t, n, 0); break;
    case 1: SUCCESSOR(t, c) = some_cell(t, n, 1); break;
    case 2: SUCCESSOR(t, c) = 0; break;
    case 3: FREE(t) = c; break;
    case 4: SUCCESSOR(t, c) = another(SUCCESSOR(t, c), n); break;
    }
}

void damage(uint32_t *t, uint32_t n) {
    uint32_t c = some_cell(t, n, 1), d = some_cell(t, n, 1), *w;
    int live = COUNT(t, c) != 0 && COUNT(t, d) != 0;
    switch (below(16)) {
    case 0:
        w = &TYPE(t, c) + below(4);
        *w = another(*w, n);
        break;
    case 1: FREE(t) = another(FREE(t), n); break;
    case 2:
        w = &HOLDS(t, below(64));
        *w = another(*w, n);
        break;
    case 3: {
        uint32_t i = 66 + below(4 * n), j = 66 + below(4 * n), x = t[i];
        t[i] = t[j];
        t[j] = x;
        break;
    }
    case 4: COUNT(t, c) += chance(50) ? 1 : (uint32_t)-1; break;
    case 5: COUNT(t, c) = chance(50) ? COUNT(t, c) ^ (1u << below(32)) : any_word(); break;
    case 6:
        if (live) move_arrow(t, &SUCCESSOR(t, c), d);
        break;
    case 7:
        if (live && TYPE(t, c) == 1) move_arrow(t, &ELEMENT(t, c), d);
        break;
    case 8: lost_ring(t); break;
    case 9: damage_free_chain(t, n); break;
    case 10: damage_free_chain(t, n); break;
    case 11:
        d = some_cell(t, n, 0);
        COUNT(t, d) = 1 + below(2);
        break;
    case 12: COUNT(t, c) = 0; break;
    case 13: TYPE(t, c) = chance(50) ? 2 + below(3) : any_word(); break;
    case 14: /* stays sound: the words of a free cell that mean nothing */
        d = some_cell(t, n, 0);
        if (COUNT(t, d) == 0) {
            TYPE(t, d) = any_word();
            ELEMENT(t, d) = any_word();
        }
        break;
    case 15: /* an element that was a list becomes an atom, or stops being counted */
        if (TYPE(t, c) == 1 && is_cell(t, ELEMENT(t, c)) && live) {
            if (chance(50)) TYPE(t, c) = 0;
            if (chance(80)) COUNT(t, ELEMENT(t, c))--;
        }
        break;
    }
}
