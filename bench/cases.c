/* The inputs of the cases. Tables are made by the library's own calls, from a fixed seed. */
#include "cases.h"

#include <stdio.h>
#include <stdlib.h>
#include <string.h>

static uint32_t state = 1;

static uint32_t below(uint32_t n) {
    state = state * 1664525u + 1013904223u;
    return (uint32_t)((uint64_t)(state >> 8) * n >> 24);
}

static size_t words_of(const given *g) { return TAB_TABLE_WORDS(g->table[0]); }

static void must(int done, const char *what) {
    if (done) return;
    printf("bench: cannot make %s\n", what);
    exit(2);
}

/* ---- Parts of inputs */

static uint32_t work[WORK], results[RESULTS];

static void fresh(given *g, uint32_t cells) {
    must(tab_set_up(g->table, TAB_TABLE_WORDS(cells), cells) == TAB_DONE, "a table");
    g->operations = 0;
    g->bytes = 0;
}

static void add(given *g, uint32_t code, uint32_t a, uint32_t b, uint32_t v) {
    must(g->operations < TAB_OPERATIONS, "a script");
    uint32_t *o = g->script + 4 * g->operations++;
    o[0] = code, o[1] = a, o[2] = b, o[3] = v;
}

/* Runs the script on the table and empties it; gives the answer. */
static uint32_t apply(given *g) {
    size_t n = g->operations;
    g->operations = 0;
    return tab_run(g->table, words_of(g), work, WORK, g->script, 4 * n, results, 2 * n).answer;
}

/* ((1,2,3),(4,5,6),..) in holder 0, of all cells, a multiple of four. */
static void nested(given *g, uint32_t cells) {
    for (uint32_t i = 0; i < cells; i += 4) {
        for (int k = 0; k < 3; k++) add(g, TAB_PFA, 1, 0, below(1000));
        add(g, TAB_PFL, 0, 1, 0);
    }
}

/* A list of atoms of 1 to `digits` digits, of at most `levels` levels, as near below `size` characters as it goes. */
static void text_of(given *g, size_t size, int levels, uint32_t digits) {
    size_t at = 0;
    int level = 1, behind = 0; /* behind an element */
    memset(g->text, ' ', TAB_TEXT);
    g->text[at++] = '(';
    while (at + (size_t)level + digits + 1 < size) {
        if (behind && level > 1 && below(4) == 0) {
            g->text[at++] = ')', level--;
        } else if (behind) {
            g->text[at++] = ',', behind = 0;
        } else if (level < levels && below(6) == 0) {
            g->text[at++] = '(', level++;
        } else {
            for (uint32_t d = 1 + below(digits); d > 0; d--) g->text[at++] = (uint8_t)('0' + below(d == 11 ? 4 : 8));
            behind = 1;
        }
    }
    if (!behind) g->text[at++] = '1';
    while (level-- > 0) g->text[at++] = ')';
    g->bytes = (at + TAB_RECORD - 1) / TAB_RECORD * TAB_RECORD;
}

/* `atoms` atoms of `digits` digits; the whole 65,520 bytes are lent. */
static void flat_text(given *g, uint32_t atoms, int digits) {
    size_t at = 0;
    memset(g->text, ' ', TAB_TEXT);
    for (uint32_t i = 0; i < atoms; i++) {
        g->text[at++] = i == 0 ? '(' : ',';
        for (int d = digits; d > 0; d--) g->text[at++] = (uint8_t)('1' + below(d == 11 ? 3 : 7));
    }
    g->text[at++] = ')';
    g->bytes = TAB_TEXT;
}

static void read_in(given *g) {
    must(tab_read(g->table, words_of(g), work, WORK, 0, g->text, g->bytes).answer == TAB_DONE, "a list");
}

/* ---- The cases */

static void no_script(given *g, uint32_t cells) {
    fresh(g, cells);
    nested(g, cells);
    must(apply(g) == TAB_DONE, "a full table");
}

static void one_operation(given *g, uint32_t cells) {
    fresh(g, cells);
    for (uint32_t i = 0; i < cells / 2; i++) add(g, TAB_PFA, 0, 0, below(1000));
    must(apply(g) == TAB_DONE, "a half full table");
    add(g, TAB_FIRST, 0, 0, 0);
}

/* 4,096 operations of all kinds on holders 0 to 15, none of them refused. */
static void long_script(given *g, uint32_t cells) {
    static const uint32_t codes[] = {1, 1, 1, 1, 1, 2, 2, 3, 3, 4, 4, 5, 5, 6, 7, 8, 9, 10, 11};
    static uint32_t table[TABLE], script[SCRIPT];
    fresh(g, cells);
    memcpy(table, g->table, sizeof table);
    for (size_t done = 0; done < TAB_OPERATIONS;) {
        add(g, codes[below(sizeof codes / sizeof codes[0])], below(16), below(16), below(4096));
        memcpy(script + 4 * done, g->script, 16);
        done += apply(g) == TAB_DONE;
    }
    memcpy(g->table, table, sizeof table);
    memcpy(g->script, script, sizeof script);
    g->operations = TAB_OPERATIONS;
}

static void erase_all(given *g, uint32_t cells) {
    no_script(g, cells);
    add(g, TAB_ERASE, 0, 0, 0);
}

static void long_text(given *g, uint32_t cells) {
    fresh(g, cells);
    text_of(g, TAB_TEXT, 50, 11);
}

static void most_cells(given *g, uint32_t cells) {
    fresh(g, cells);
    flat_text(g, cells, 11);
}

static void digits(given *g, uint32_t cells) {
    fresh(g, cells);
    flat_text(g, 32759, 1);
}

/* 65,520 bytes: blanks alone; one list in the first record, and blank records. */
static void blanks(given *g, uint32_t cells) {
    fresh(g, cells);
    memset(g->text, ' ', TAB_TEXT);
    g->bytes = TAB_TEXT;
}

static void list_and_blanks(given *g, uint32_t cells) {
    fresh(g, cells);
    flat_text(g, 5, 11);
}

static void list_of_atoms(given *g, uint32_t cells) {
    most_cells(g, cells);
    read_in(g);
}

/* 65,520 characters: a list of 1,000 atoms comes 32 times, then 727 atoms. */
static void long_list(given *g, uint32_t cells) {
    fresh(g, cells);
    for (int i = 0; i < 1000; i++) add(g, TAB_PFA, 10, 0, below(8));
    add(g, TAB_PFA, 0, 0, 8);
    for (int i = 0; i < 726; i++) add(g, TAB_PFA, 0, 0, below(8));
    for (int i = 0; i < 32; i++) add(g, TAB_BORROW, 10, 11, 0), add(g, TAB_PFL, 0, 11, 0);
    must(apply(g) == TAB_DONE, "a long list");
}

/* A text of 200 levels, and its list: what needs most stack. */
static void deepest_text(given *g, uint32_t cells) {
    fresh(g, cells);
    memset(g->text, ' ', TAB_TEXT);
    memset(g->text, '(', TAB_LEVELS);
    memset(g->text + TAB_LEVELS, ')', TAB_LEVELS);
    g->bytes = 6 * TAB_RECORD;
}

static void deepest_list(given *g, uint32_t cells) {
    deepest_text(g, cells);
    read_in(g);
}

/* ---- The same in groups */

/*
 * 65,519 characters, all but brackets in the innermost of 200 lists: dear for a move that looks ahead to count
 * elements.
 */
static void deep_digits(given *g, uint32_t cells) {
    size_t around = TAB_LEVELS - 1, end = TAB_TEXT - 1 - around;
    fresh(g, cells);
    memset(g->text, '(', TAB_LEVELS);
    for (size_t at = TAB_LEVELS; at < end; at++) g->text[at] = (at - TAB_LEVELS) % 2 == 0 ? '7' : ',';
    memset(g->text + end - 1, ')', TAB_LEVELS);
    g->text[TAB_TEXT - 1] = ' ';
    g->bytes = TAB_TEXT;
}

static void to_groups(given *g) {
    static uint8_t groups[TAB_TEXT];
    tab_moved m = tab_text_to_groups(g->text, g->bytes, groups, TAB_TEXT);
    must(m.answer == TAB_DONE, "groups");
    memcpy(g->text, groups, m.written);
    g->bytes = m.written;
}

static void most_cells_groups(given *g, uint32_t cells) {
    most_cells(g, cells);
    to_groups(g);
}

static void long_groups(given *g, uint32_t cells) {
    long_text(g, cells);
    to_groups(g);
}

static void digit_groups(given *g, uint32_t cells) {
    digits(g, cells);
    to_groups(g);
}

/*
 * Atoms of six digits up to the end of the text, 65,514 characters. Where fewer than eleven are left, digits may be put
 * in another way, with more stack.
 */
static void several_digits(given *g, uint32_t cells) {
    fresh(g, cells);
    flat_text(g, 9359, 6);
    to_groups(g);
}

/* 200 levels, an atom of five groups in the innermost list: what needs most stack to read. */
static void deepest_groups(given *g, uint32_t cells) {
    static const uint8_t largest[] = {254, 255, 255, 255, 31};
    fresh(g, cells);
    memset(g->text, 3, TAB_LEVELS);
    memcpy(g->text + TAB_LEVELS, largest, sizeof largest);
    g->bytes = TAB_LEVELS + sizeof largest;
}

/* `number` chains in a list, each of 199 levels with the null list as the innermost: 199 bytes and cells a chain. */
static void chains(given *g, uint32_t cells, uint32_t number) {
    size_t at = 0, levels = TAB_LEVELS - 1;
    uint32_t first = 2 * number + 1;
    fresh(g, cells);
    for (; first >= 128; first /= 128) g->text[at++] = (uint8_t)(128 + first % 128);
    g->text[at++] = (uint8_t)first;
    for (; number > 0; number--) {
        memset(g->text + at, 3, levels);
        at += levels;
        g->text[at - 1] = 1;
    }
    g->bytes = at;
}

static void few_chains(given *g, uint32_t cells) { chains(g, cells, cells / (TAB_LEVELS - 1)); }

/* As many as 65,520 bytes take: 329, and two bytes before them. */
static void most_chains(given *g, uint32_t cells) { chains(g, cells, (TAB_TEXT - 2) / (TAB_LEVELS - 1)); }

/* 65,520 bytes, 200 levels: every list says that it has 2^32 - 1 elements, and the bytes run out. */
static void claims(given *g, uint32_t cells) {
    fresh(g, cells);
    memset(g->text, 0, TAB_TEXT);
    for (int i = 0; i < TAB_LEVELS; i++) memcpy(g->text + 5 * i, (uint8_t[]){255, 255, 255, 255, 31}, 5);
    g->bytes = TAB_TEXT;
}

/* 65,517 atoms in 65,520 bytes: the most that groups can say, too much for text and for cells. */
static void most_elements(given *g, uint32_t cells) {
    fresh(g, cells);
    memset(g->text, 2, TAB_TEXT);
    memcpy(g->text, (uint8_t[]){219, 255, 7}, 3);
    g->bytes = TAB_TEXT;
}

const bench_case cases[] = {
    {"set up 4,000 cells", fresh, 4000, SET_UP, 4, TAB_DONE},
    {"soundness check, 500 cells", no_script, 500, RUN, 4, TAB_DONE},
    {"soundness check, 1,000 cells", no_script, 1000, RUN, 4, TAB_DONE},
    {"soundness check, 2,000 cells", no_script, 2000, RUN, 4, TAB_DONE},
    {"soundness check, 4,000 cells", no_script, 4000, RUN, 4, TAB_DONE},
    {"script of 1 operation, 64 cells", one_operation, 64, RUN, 200, TAB_DONE},
    {"script of 4,096 operations", long_script, 4000, RUN, 1, TAB_DONE},
    {"erase of 4,000 cells", erase_all, 4000, RUN, 1, TAB_DONE},
    {"text check, 65,520 bytes", long_text, 4000, CHECK, 1, TAB_DONE},
    {"text check, 65,520 bytes, one digit", digits, 4000, CHECK, 1, TAB_DONE},
    {"text check, 200 levels", deepest_text, 4000, CHECK, 100, TAB_DONE},
    {"text check, 65,520 blanks", blanks, 4000, CHECK, 1, TAB_END},
    {"rest of a list and blanks, 65,520 bytes", list_and_blanks, 4000, REST, 1, TAB_DONE},
    {"read 65,520 bytes, 4,000 atoms", most_cells, 4000, READ, 1, TAB_DONE},
    {"read 65,520 bytes, no room", long_text, 4000, READ, 1, TAB_NO_ROOM},
    {"read 200 levels", deepest_text, 4000, READ, 1, TAB_DONE},
    {"write 65,520 bytes", long_list, 4000, WRITE, 1, TAB_DONE},
    {"write 48,024 bytes, 4,000 atoms", list_of_atoms, 4000, WRITE, 1, TAB_DONE},
    {"write 200 levels", deepest_list, 4000, WRITE, 1, TAB_DONE},
    {"read groups, 4,000 atoms of 5 bytes", most_cells_groups, 4000, READ_GROUPS, 1, TAB_DONE},
    {"read groups, 65,520 bytes, no room", most_elements, 4000, READ_GROUPS, 1, TAB_NO_ROOM},
    {"read groups, nested, no room", long_groups, 4000, READ_GROUPS, 1, TAB_NO_ROOM},
    {"read groups, 65,520 bytes, runs out", claims, 4000, READ_GROUPS, 1, TAB_GROUPS},
    {"read groups, 200 levels", deepest_groups, 4000, READ_GROUPS, 1, TAB_DONE},
    {"read groups, 20 chains of 199 levels", few_chains, 4000, READ_GROUPS, 1, TAB_DONE},
    {"read groups, 329 chains, no room", most_chains, 4000, READ_GROUPS, 1, TAB_NO_ROOM},
    {"write groups, 32,793 bytes", long_list, 4000, WRITE_GROUPS, 1, TAB_DONE},
    {"write groups, 4,000 atoms of 5 bytes", list_of_atoms, 4000, WRITE_GROUPS, 1, TAB_DONE},
    {"write groups, 200 levels", deepest_list, 4000, WRITE_GROUPS, 1, TAB_DONE},
    {"text to groups, 65,520 bytes", long_text, 4000, TO_GROUPS, 1, TAB_DONE},
    {"text to groups, 65,520 bytes, one digit", digits, 4000, TO_GROUPS, 1, TAB_DONE},
    {"text to groups, 65,520 bytes, level 200", deep_digits, 4000, TO_GROUPS, 1, TAB_DONE},
    {"text to groups, 200 levels", deepest_text, 4000, TO_GROUPS, 100, TAB_DONE},
    {"groups to text, nested", long_groups, 4000, TO_TEXT, 1, TAB_DONE},
    {"groups to text, 65,520 bytes, one digit", digit_groups, 4000, TO_TEXT, 1, TAB_DONE},
    {"groups to text, 65,520 bytes, six digits", several_digits, 4000, TO_TEXT, 1, TAB_DONE},
    {"groups to text, 65,520 bytes, runs out", claims, 4000, TO_TEXT, 1, TAB_GROUPS},
    {"groups to text, 200 levels", deepest_groups, 4000, TO_TEXT, 100, TAB_DONE},
};
const int number_of_cases = sizeof cases / sizeof cases[0];

void put_before(const given *g, left *l) { memcpy(l->table, g->table, 4 * words_of(g)); }

static tab_moved gave(tab_outcome o) { return (tab_moved){o.answer, o.count, 0}; }

void make_call(const calls *of, enum call call, const given *g, left *l) {
    size_t words = words_of(g), n = g->operations;
    switch (call) {
    case SET_UP: l->outcome = (tab_moved){of->set_up(l->table, words, g->table[0]), 0, 0}; break;
    case RUN: l->outcome = gave(of->run(l->table, words, l->work, WORK, g->script, 4 * n, l->results, 2 * n)); break;
    case READ: l->outcome = gave(of->read(l->table, words, l->work, WORK, 0, g->text, g->bytes)); break;
    case WRITE: l->outcome = gave(of->write(l->table, words, l->work, WORK, 0, l->out, TAB_TEXT)); break;
    case CHECK: l->outcome = gave(of->check(g->text, g->bytes)); break;
    case REST: l->outcome = (tab_moved){TAB_DONE, (uint32_t)of->rest(g->text, g->bytes), 0}; break;
    case READ_GROUPS: l->outcome = gave(of->read_groups(l->table, words, l->work, WORK, 0, g->text, g->bytes)); break;
    case WRITE_GROUPS: l->outcome = gave(of->write_groups(l->table, words, l->work, WORK, 0, l->out, TAB_TEXT)); break;
    case TO_GROUPS: l->outcome = of->to_groups(g->text, g->bytes, l->out, TAB_TEXT); break;
    case TO_TEXT: l->outcome = of->to_text(g->text, g->bytes, l->out, TAB_TEXT); break;
    case CALLS: break;
    }
}
