#include "place.h"

#include "tabeshilo.h"

/* ---- Text, character by character */

typedef struct {
    int level;
    char before; /* what came last: '(', ',', ')' or '0' for a digit */
    int digits;
    uint64_t atom;
} state;

/* Takes a digit; 0 if it makes the atom too long or too large. */
static int digit_fits(state *s, uint8_t ch) {
    if (s->before != '0') s->digits = 0, s->atom = 0;
    s->digits++;
    s->atom = 8 * s->atom + (uint64_t)(ch - '0');
    s->before = '0';
    return s->digits <= 11 && s->atom <= UINT32_MAX;
}

/* Takes a character of the list; 0 if it may not stand there. */
static int fits(state *s, uint8_t ch) {
    int element_may_start = s->before == '(' || s->before == ',';
    if (ch >= '0' && ch <= '7') return s->level > 0 && s->before != ')' && digit_fits(s, ch);
    if (ch == '(' && (!element_may_start || s->level == TAB_LEVELS)) return 0;
    if (ch == ')' && (s->level == 0 || s->before == ',')) return 0;
    if (ch == ',' && (s->level == 0 || element_may_start)) return 0;
    if (ch != '(' && ch != ')' && ch != ',') return 0;
    s->level += (ch == '(') - (ch == ')');
    s->before = (char)ch;
    return 1;
}

size_t place_in_text(const uint8_t *text, size_t bytes) {
    state s = {0, ',', 0, 0};
    size_t at = 0;
    do {
        if (at == bytes || !fits(&s, text[at])) return at;
        at++;
    } while (s.level > 0);
    while (at % TAB_RECORD != 0 && at < bytes && text[at] == ' ') at++;
    return at;
}

/* ---- Groups, number by number */

static const char runs_out[] = "they end before the list does", too_long[] = "a number in more groups than needed",
                  too_large[] = "a number of 2^33 or more", an_atom[] = "an atom where a list should start",
                  too_deep[] = "a list of level 201";

/* Reads the number at `at`; gives the byte behind it, or `at` and why it is none. */
static size_t number_end(const uint8_t *groups, size_t bytes, size_t at, uint64_t *number, const char **why) {
    size_t end = at;
    *number = 0;
    for (int shift = 0;; shift += 7) {
        if (end == bytes) return *why = runs_out, at;
        uint64_t group = groups[end] & 127;
        if (shift > 28 || (shift == 28 && group > 31)) *why = too_large;
        else *number |= group << shift;
        if (groups[end++] < 128) break;
    }
    if (end - at > 1 && groups[end - 1] == 0) *why = too_long;
    return *why ? at : end;
}

size_t place_in_groups(const uint8_t *groups, size_t bytes, const char **why) {
    uint64_t left[TAB_LEVELS]; /* elements that are still to come, by level */
    size_t at = 0, levels = 0, end;
    *why = NULL;
    do {
        uint64_t number;
        end = number_end(groups, bytes, at, &number, why);
        if (*why) return *why == runs_out ? bytes : at;
        if (levels > 0) left[levels - 1]--;
        if (number % 2 == 0 && levels == 0) return *why = an_atom, at;
        if (number % 2 == 1 && levels == TAB_LEVELS) return *why = too_deep, at;
        if (number % 2 == 1) left[levels++] = number / 2;
        while (levels > 0 && left[levels - 1] == 0) levels--;
        at = end;
    } while (levels > 0);
    return at;
}
