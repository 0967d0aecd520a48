/*
 * The calls of tabeshilo.h as the rules have them, in the plainest way: a table is unpacked into a struct, counts are
 * tallied, rings are looked for depth first, waiting lists stand in an array, text and groups are read by recursive
 * descent into a tree, and both forms are written from a tree or from cells by the same recursion. Nothing here is
 * taken from the engine's code, and nothing is done for speed.
 */
#include "reference.h"

#include <string.h>

/* ---- The table, unpacked */

typedef struct {
    uint32_t t, e, r, s;
} cell;

typedef struct {
    uint32_t n, free, holder[64];
    cell at[4001]; /* at[0] is not used */
} pool;

/* There is one pool, since one call runs at a time. */
static pool p;

static int table_fits(const uint32_t *table, size_t words) {
    return words >= 1 && table[0] >= 1 && table[0] <= 4000 && words == 66 + 4 * (size_t)table[0];
}

static void unpack(const uint32_t *table) {
    p.n = table[0];
    p.free = table[1];
    for (uint32_t h = 0; h < 64; h++) p.holder[h] = table[2 + h];
    for (uint32_t c = 1; c <= p.n; c++) {
        const uint32_t *w = table + 66 + 4 * (c - 1);
        p.at[c] = (cell){w[0], w[1], w[2], w[3]};
    }
}

static void pack(uint32_t *table) {
    table[0] = p.n;
    table[1] = p.free;
    for (uint32_t h = 0; h < 64; h++) table[2 + h] = p.holder[h];
    for (uint32_t c = 1; c <= p.n; c++) {
        uint32_t *w = table + 66 + 4 * (c - 1);
        w[0] = p.at[c].t;
        w[1] = p.at[c].e;
        w[2] = p.at[c].r;
        w[3] = p.at[c].s;
    }
}

/* ---- Soundness */

static int is_live(uint32_t c) { return c >= 1 && c <= p.n && p.at[c].r > 0; }

static int null_or_live(uint32_t c) { return c == 0 || is_live(c); }

static int free_chain_is_right(void) {
    static char met[4001];
    memset(met, 0, p.n + 1);
    for (uint32_t c = p.free; c != 0; c = p.at[c].s) {
        if (c > p.n || is_live(c) || met[c]) return 0;
        met[c] = 1;
    }
    for (uint32_t c = 1; c <= p.n; c++)
        if (!is_live(c) && !met[c]) return 0;
    return 1;
}

static int arrows_are_right(void) {
    for (uint32_t h = 0; h < 64; h++)
        if (!null_or_live(p.holder[h])) return 0;
    for (uint32_t c = 1; c <= p.n; c++) {
        if (!is_live(c)) continue;
        if (p.at[c].t > 1) return 0;
        if (!null_or_live(p.at[c].s)) return 0;
        if (p.at[c].t == 1 && !null_or_live(p.at[c].e)) return 0;
    }
    return 1;
}

/* Only called once all arrows are known to end at a cell or at 0. */
static int counts_are_right(void) {
    static uint32_t arrows[4001];
    memset(arrows, 0, (p.n + 1) * sizeof arrows[0]);
    for (uint32_t h = 0; h < 64; h++) arrows[p.holder[h]]++;
    for (uint32_t c = 1; c <= p.n; c++) {
        if (!is_live(c)) continue;
        arrows[p.at[c].s]++;
        if (p.at[c].t == 1) arrows[p.at[c].e]++;
    }
    for (uint32_t c = 1; c <= p.n; c++)
        if (is_live(c) && p.at[c].r != arrows[c]) return 0;
    return 1;
}

static char mark[4001]; /* 0 not seen, 1 on the way down, 2 done */

static int ring_below(uint32_t c) {
    if (c == 0 || mark[c] == 2) return 0;
    if (mark[c] == 1) return 1;
    mark[c] = 1;
    if (ring_below(p.at[c].s)) return 1;
    if (p.at[c].t == 1 && ring_below(p.at[c].e)) return 1;
    mark[c] = 2;
    return 0;
}

static int has_ring(void) {
    memset(mark, 0, p.n + 1);
    for (uint32_t c = 1; c <= p.n; c++)
        if (is_live(c) && ring_below(c)) return 1;
    return 0;
}

static int is_sound(void) { return free_chain_is_right() && arrows_are_right() && counts_are_right() && !has_ring(); }

/* ---- Operations */

static uint32_t free_cells(void) {
    uint32_t k = 0;
    for (uint32_t c = p.free; c != 0; c = p.at[c].s) k++;
    return k;
}

static uint32_t length_of(uint32_t c) {
    uint32_t k = 0;
    for (; c != 0; c = p.at[c].s) k++;
    return k;
}

static int some_main_level_count_over_1(uint32_t c) {
    for (; c != 0; c = p.at[c].s)
        if (p.at[c].r > 1) return 1;
    return 0;
}

static uint32_t new_cell(uint32_t t, uint32_t e, uint32_t s) {
    uint32_t c = p.free;
    p.free = p.at[c].s;
    p.at[c] = (cell){t, e, 1, s};
    return c;
}

static void release(uint32_t c) {
    p.at[c].r = 0;
    p.at[c].s = p.free;
    p.free = c;
}

static void count_one_more(uint32_t c) {
    if (c != 0) p.at[c].r++;
}

/* Gives up one arrow to x; answers how many cells that frees. */
static uint32_t erase(uint32_t x) {
    static uint32_t waiting[4000];
    uint32_t waits = 0, freed = 0;
    for (;;) {
        while (x != 0) {
            p.at[x].r--;
            if (p.at[x].r > 0) break;
            uint32_t successor = p.at[x].s;
            if (p.at[x].t == 1) {
                waiting[waits++] = x;
            } else {
                release(x);
                freed++;
            }
            x = successor;
        }
        if (waits == 0) return freed;
        uint32_t head = waiting[--waits];
        x = p.at[head].e;
        release(head);
        freed++;
    }
}

typedef struct {
    uint32_t code, a, b, v;
} operation;

static int uses_both(uint32_t code) {
    return code == TAB_PFL || code == TAB_DECAP || code == TAB_ADV || code == TAB_BORROW || code == TAB_CINV ||
           code == TAB_CONC;
}

/* The answer that refuses the operation, or 0. */
static uint32_t refusal(operation o) {
    if (o.code < 1 || o.code > 11) return 6;
    int both = uses_both(o.code);
    if (o.a > 63 || (both && o.b > 63)) return 7;
    if (both && o.a == o.b) return 8;
    uint32_t a = p.holder[o.a], b = both ? p.holder[o.b] : 0;

    int wants_an_element = o.code == TAB_DECAP || o.code == TAB_ADV || o.code == TAB_FIRST;
    if (wants_an_element && a == 0) return 9;

    int fills_b = o.code == TAB_DECAP || o.code == TAB_ADV || o.code == TAB_BORROW || o.code == TAB_CINV;
    if (fills_b && b != 0) return 10;

    if (o.code == TAB_DECAP && p.at[a].r > 1) return 11;
    if (o.code == TAB_INV && some_main_level_count_over_1(a)) return 11;
    if (o.code == TAB_CONC && b != 0 && some_main_level_count_over_1(a)) return 11;

    uint32_t needed = 0;
    if (o.code == TAB_PFA || o.code == TAB_PFL) needed = 1;
    if (o.code == TAB_CINV) needed = length_of(a);
    if (needed > 0 && needed > free_cells()) return 12;
    return 0;
}

/* Does an operation that is not refused, and gives its two result words. */
static void perform(operation o, uint32_t result[2]) {
    uint32_t *a = &p.holder[o.a], *b = uses_both(o.code) ? &p.holder[o.b] : 0;
    uint32_t c = *a;
    result[0] = 3;
    result[1] = 0;
    if (o.code == TAB_DECAP || o.code == TAB_ADV || o.code == TAB_FIRST) {
        result[0] = p.at[c].t;
        result[1] = p.at[c].t == 1 ? 0 : p.at[c].e;
    }
    switch (o.code) {
    case TAB_PFA: *a = new_cell(0, o.v, c); break;
    case TAB_PFL:
        *a = new_cell(1, *b, c);
        *b = 0;
        break;
    case TAB_DECAP:
        if (p.at[c].t == 1) *b = p.at[c].e;
        *a = p.at[c].s;
        release(c);
        break;
    case TAB_ADV:
        if (p.at[c].t == 1) {
            *b = p.at[c].e;
            count_one_more(*b);
        }
        *a = p.at[c].s;
        count_one_more(*a);
        erase(c);
        break;
    case TAB_BORROW:
        *b = c;
        count_one_more(c);
        break;
    case TAB_ERASE:
        *a = 0;
        result[0] = 2;
        result[1] = erase(c);
        break;
    case TAB_INV: {
        uint32_t reversed = 0;
        while (c != 0) {
            uint32_t rest = p.at[c].s;
            p.at[c].s = reversed;
            reversed = c;
            c = rest;
        }
        *a = reversed;
        break;
    }
    case TAB_CINV:
        for (; c != 0; c = p.at[c].s) {
            if (p.at[c].t == 1) count_one_more(p.at[c].e);
            *b = new_cell(p.at[c].t, p.at[c].e, *b);
        }
        break;
    case TAB_CONC:
        if (c == 0) {
            *a = *b;
        } else if (*b != 0) {
            while (p.at[c].s != 0) c = p.at[c].s;
            p.at[c].s = *b;
        }
        *b = 0;
        break;
    case TAB_FIRST: break;
    case TAB_LENGTH:
        result[0] = 2;
        result[1] = length_of(c);
        break;
    }
}

/* ---- Text into a tree */

typedef struct {
    int is_list;
    uint32_t atom;
    uint32_t first, next; /* the first element of a list; the element after this one; 0 if there is none */
} node;

typedef struct {
    const uint8_t *byte;
    size_t bytes, at;
    uint32_t fault;
} reader;

static node nodes[65521]; /* nodes[0] is not used; no stored list has more elements than bytes */
static uint32_t node_count;

/* A new element, behind the one before it in its list or as the first of all. */
static uint32_t new_node(uint32_t before, uint32_t *first) {
    uint32_t me = ++node_count;
    nodes[me] = (node){0, 0, 0, 0};
    if (before == 0) *first = me;
    else nodes[before].next = me;
    return me;
}

/* The character at the reader's place, or -1 where the text has run out. */
static int look(const reader *r) { return r->at < r->bytes ? r->byte[r->at] : -1; }

static int is_digit(int ch) { return ch >= '0' && ch <= '7'; }

static uint32_t read_atom(reader *r) {
    uint64_t value = 0;
    int digits = 0;
    while (is_digit(look(r))) {
        digits++;
        value = value * 8 + (uint64_t)(look(r) - '0');
        if (digits == 12 || value >= 4294967296) {
            r->fault = 16;
            return 0;
        }
        r->at++;
    }
    return (uint32_t)value;
}

/* Reads the list that opens this level, and gives its first element. The fault, if there is one, is the earliest. */
static uint32_t read_list(reader *r, int level) {
    uint32_t first = 0, me = 0;
    if (look(r) != '(') {
        r->fault = 15;
        return 0;
    }
    if (level > 200) {
        r->fault = 17;
        return 0;
    }
    r->at++;
    if (look(r) == ')') {
        r->at++;
        return 0;
    }
    for (;;) {
        me = new_node(me, &first);
        if (is_digit(look(r))) {
            nodes[me].atom = read_atom(r);
        } else {
            nodes[me].is_list = 1;
            nodes[me].first = read_list(r, level + 1);
        }
        if (r->fault) return 0;
        int ch = look(r);
        if (ch != ',' && ch != ')') {
            r->fault = 15;
            return 0;
        }
        r->at++;
        if (ch == ')') return first;
    }
}

/* Reads the whole text; the tree's first element goes to *first, the bytes taken to *taken. Gives the answer. */
static uint32_t parse(const uint8_t *text, size_t bytes, uint32_t *first, uint32_t *taken) {
    reader r = {text, bytes, 0, 0};
    node_count = 0;
    *first = read_list(&r, 1);
    if (r.fault) return r.fault;
    while (r.at % 72 != 0) {
        if (look(&r) != ' ') return 15;
        r.at++;
    }
    *taken = (uint32_t)r.at;
    return 0;
}

static int only_blanks(const uint8_t *text, size_t bytes) {
    for (size_t i = 0; i < bytes; i++)
        if (text[i] != ' ') return 0;
    return 1;
}

/* What refuses a text before its list is looked for: its size, or that it has no byte but blanks, or none at all. */
static uint32_t early_fault(const uint8_t *text, size_t bytes) {
    if (bytes % 72 != 0 || bytes > 65520) return 13;
    if (bytes == 0 || only_blanks(text, bytes)) return 14;
    return 0;
}

/* ---- Groups into a tree */

enum groups_fault ref_groups_fault;

static uint64_t groups_fault(reader *r, enum groups_fault why) {
    r->fault = 19;
    ref_groups_fault = why;
    return 0;
}

/* Finds the number's last byte first, and adds up from there. */
static uint64_t read_number(reader *r) {
    uint64_t value = 0;
    size_t first = r->at, last = first;
    while (last < r->bytes && r->byte[last] >= 128) last++;
    if (last == r->bytes) return groups_fault(r, RUNS_OUT);
    if (last > first && r->byte[last] == 0) return groups_fault(r, TOO_MANY_GROUPS);
    for (size_t i = last + 1; i > first; i--) {
        value = value * 128 + r->byte[i - 1] % 128;
        if (value >= 8589934592) return groups_fault(r, TOO_LARGE);
    }
    r->at = last + 1;
    return value;
}

static uint32_t read_elements(reader *r, uint64_t left, int level);

/* Makes the element of a number that was read; if it is a list, its own elements follow and are read too. */
static void read_element(reader *r, uint32_t me, uint64_t number, int level) {
    nodes[me].is_list = number % 2 == 1;
    if (number % 2 == 0) nodes[me].atom = (uint32_t)(number / 2);
    else if (level == 200) r->fault = 17;
    else nodes[me].first = read_elements(r, number / 2, level + 1);
}

/* Reads so many elements of a list of this level, and gives the first of them. */
static uint32_t read_elements(reader *r, uint64_t left, int level) {
    uint32_t first = 0, me = 0;
    for (; left > 0 && !r->fault; left--) {
        uint64_t number = read_number(r);
        if (r->fault) break;
        me = new_node(me, &first);
        read_element(r, me, number, level);
    }
    return first;
}

/* Reads the list at the start of groups; as parse does for text. */
static uint32_t parse_groups(const uint8_t *groups, size_t bytes, uint32_t *first, uint32_t *taken) {
    reader r = {groups, bytes, 0, 0};
    node_count = 0;
    uint64_t number = read_number(&r);
    if (!r.fault && number % 2 == 0) groups_fault(&r, ATOM_AT_TOP);
    if (!r.fault) *first = read_elements(&r, number / 2, 1);
    *taken = (uint32_t)r.at;
    return r.fault;
}

static uint32_t early_groups_fault(const uint8_t *groups, size_t bytes) {
    (void)groups;
    if (bytes > 65520) return 13;
    return bytes == 0 ? 14 : 0;
}

/* ---- Both forms */

static uint32_t extent(uint32_t element) {
    uint32_t k = 0;
    for (; element != 0; element = nodes[element].next) {
        k++;
        if (nodes[element].is_list) k += extent(nodes[element].first);
    }
    return k;
}

/* Makes cells for the elements from this one on, in the order in which they begin in the stored form. */
static uint32_t build(uint32_t element) {
    uint32_t first = 0, last = 0;
    for (; element != 0; element = nodes[element].next) {
        uint32_t c = new_cell((uint32_t)nodes[element].is_list, nodes[element].atom, 0);
        if (nodes[element].is_list) p.at[c].e = build(nodes[element].first);
        if (last == 0) first = c;
        else p.at[last].s = c;
        last = c;
    }
    return first;
}

/* ---- A list into text or groups, from the cells of the pool or from the tree */

typedef struct {
    node (*element)(uint32_t); /* an element by its number: that of its cell, or its place in the tree */
    uint8_t byte[65520];
    size_t bytes, usable;
    uint32_t fault;
} writer;

static writer w;

static node from_cell(uint32_t c) {
    cell me = p.at[c];
    return (node){me.t == 1, me.e, me.t == 1 ? me.e : 0, me.s};
}

static node from_tree(uint32_t i) { return nodes[i]; }

static size_t least(size_t a, size_t b) { return a < b ? a : b; }

static size_t usable_for_text(size_t room) { return least(room, 65520) / 72 * 72; }

static size_t usable_for_groups(size_t room) { return least(room, 65520); }

static void start_writing(node (*element)(uint32_t), size_t usable) {
    w.element = element;
    w.bytes = 0;
    w.usable = usable;
    w.fault = 0;
}

static void put(char ch) {
    if (w.fault) return;
    if (w.bytes >= w.usable) w.fault = 18;
    else w.byte[w.bytes++] = (uint8_t)ch;
}

static void put_atom(uint32_t atom) {
    if (atom >= 8) put_atom(atom / 8);
    put((char)('0' + atom % 8));
}

static void put_list(uint32_t i, int level) {
    if (w.fault) return;
    if (level > 200) {
        w.fault = 17;
        return;
    }
    put('(');
    for (uint32_t first = i; i != 0 && !w.fault; i = w.element(i).next) {
        node me = w.element(i);
        if (i != first) put(',');
        if (me.is_list) put_list(me.first, level + 1);
        else put_atom(me.atom);
    }
    put(')');
}

static void put_text(uint32_t first) {
    put_list(first, 1);
    while (!w.fault && w.bytes % 72 != 0) put(' ');
}

/* A number fits whole or is a fault. */
static void put_number(uint64_t number) {
    uint8_t group[5];
    size_t groups = 0;
    do {
        group[groups++] = (uint8_t)(number % 128 + (number >= 128 ? 128 : 0));
        number /= 128;
    } while (number > 0);
    if (w.bytes + groups > w.usable) {
        w.fault = 18;
        return;
    }
    memcpy(w.byte + w.bytes, group, groups);
    w.bytes += groups;
}

static void put_groups(uint32_t first, int level) {
    uint64_t elements = 0;
    if (level > 200) {
        w.fault = 17;
        return;
    }
    for (uint32_t i = first; i != 0; i = w.element(i).next) elements++;
    put_number(2 * elements + 1);
    for (uint32_t i = first; i != 0 && !w.fault; i = w.element(i).next) {
        node me = w.element(i);
        if (me.is_list) put_groups(me.first, level + 1);
        else put_number(2 * (uint64_t)me.atom);
    }
}

static void put_all_groups(uint32_t first) { put_groups(first, 1); }

/* ---- The calls */

static tab_outcome outcome(uint32_t answer, uint32_t count) { return (tab_outcome){answer, count}; }

static void clear_work(uint32_t *work) {
    for (uint32_t i = 0; i < 2 * p.n; i++) work[i] = 0;
}

uint32_t ref_set_up(uint32_t *table, size_t words, uint32_t cells) {
    if (cells < 1 || cells > 4000) return 1;
    if (words != 66 + 4 * (size_t)cells) return 1;
    for (size_t i = 0; i < words; i++) table[i] = 0;
    table[0] = cells;
    table[1] = 1;
    for (uint32_t c = 1; c < cells; c++) table[66 + 4 * (c - 1) + 3] = c + 1;
    return 0;
}

void ref_open(const uint32_t *table) { unpack(table); }

uint32_t ref_step(const uint32_t w[4], uint32_t result[2]) {
    operation o = {w[0], w[1], w[2], w[3]};
    uint32_t answer = refusal(o);
    if (answer == 0) perform(o, result);
    return answer;
}

tab_outcome ref_run(uint32_t *table, size_t table_words, uint32_t *work, size_t work_words, const uint32_t *script,
                    size_t script_words, uint32_t *results, size_t results_words) {
    if (!table_fits(table, table_words)) return outcome(1, 0);
    if (work_words < 2 * (size_t)table[0]) return outcome(2, 0);
    if (script_words % 4 != 0 || script_words / 4 > 4096) return outcome(3, 0);
    if (results_words < 2 * (script_words / 4)) return outcome(4, 0);
    unpack(table);
    clear_work(work);
    if (!is_sound()) return outcome(5, 0);
    uint32_t done = 0, answer = 0;
    while (done < script_words / 4) {
        answer = ref_step(script + 4 * done, results + 2 * done);
        if (answer) break;
        done++;
    }
    pack(table);
    return outcome(answer, done);
}

/* Text or groups: how a stored form is looked at first, and then read. */
typedef struct {
    uint32_t (*early)(const uint8_t *, size_t);
    uint32_t (*parse)(const uint8_t *, size_t, uint32_t *, uint32_t *);
} form;

static const form as_text = {early_fault, parse}, as_groups = {early_groups_fault, parse_groups};

static tab_outcome read_as(form f, uint32_t *table, size_t table_words, uint32_t *work, size_t work_words, uint32_t holder,
                           const uint8_t *in, size_t bytes) {
    uint32_t first, taken;
    if (!table_fits(table, table_words)) return outcome(1, 0);
    if (work_words < 2 * (size_t)table[0]) return outcome(2, 0);
    if (holder > 63) return outcome(7, 0);
    uint32_t fault = f.early(in, bytes);
    if (fault) return outcome(fault, 0);
    unpack(table);
    clear_work(work);
    if (!is_sound()) return outcome(5, 0);
    if (p.holder[holder] != 0) return outcome(10, 0);
    fault = f.parse(in, bytes, &first, &taken);
    if (fault) return outcome(fault, 0);
    if (extent(first) > free_cells()) return outcome(12, 0);
    p.holder[holder] = build(first);
    pack(table);
    return outcome(0, taken);
}

tab_outcome ref_read(uint32_t *table, size_t table_words, uint32_t *work, size_t work_words, uint32_t holder,
                     const uint8_t *text, size_t bytes) {
    return read_as(as_text, table, table_words, work, work_words, holder, text, bytes);
}

tab_outcome ref_read_groups(uint32_t *table, size_t words, uint32_t *work, size_t work_words, uint32_t holder,
                            const uint8_t *groups, size_t bytes) {
    return read_as(as_groups, table, words, work, work_words, holder, groups, bytes);
}

/* What refuses a write before its list is looked at; otherwise the pool is unpacked. */
static uint32_t open_to_write(const uint32_t *table, size_t table_words, uint32_t *work, size_t work_words, uint32_t holder) {
    if (!table_fits(table, table_words)) return 1;
    if (work_words < 2 * (size_t)table[0]) return 2;
    if (holder > 63) return 7;
    unpack(table);
    clear_work(work);
    return is_sound() ? 0 : 5;
}

/* Hands out what was put together, if nothing was at fault. */
static tab_outcome hand_out(uint8_t *out) {
    if (w.fault) return outcome(w.fault, 0);
    memcpy(out, w.byte, w.bytes);
    return outcome(0, (uint32_t)w.bytes);
}

tab_outcome ref_write(const uint32_t *table, size_t table_words, uint32_t *work, size_t work_words, uint32_t holder,
                      uint8_t *out, size_t room) {
    uint32_t fault = open_to_write(table, table_words, work, work_words, holder);
    if (fault) return outcome(fault, 0);
    start_writing(from_cell, usable_for_text(room));
    put_text(p.holder[holder]);
    return hand_out(out);
}

tab_outcome ref_write_groups(const uint32_t *table, size_t words, uint32_t *work, size_t work_words, uint32_t holder,
                             uint8_t *out, size_t room) {
    uint32_t fault = open_to_write(table, words, work, work_words, holder);
    if (fault) return outcome(fault, 0);
    start_writing(from_cell, usable_for_groups(room));
    put_all_groups(p.holder[holder]);
    return hand_out(out);
}

/* Reads the list in one form into the tree; `put_down` then puts it down in the other. */
static tab_moved move_from(form f, const uint8_t *in, size_t bytes, void (*put_down)(uint32_t), size_t usable, uint8_t *out) {
    uint32_t first, taken, fault = f.early(in, bytes);
    if (!fault) fault = f.parse(in, bytes, &first, &taken);
    if (fault) return (tab_moved){fault, 0, 0};
    start_writing(from_tree, usable);
    put_down(first);
    tab_outcome o = hand_out(out);
    return (tab_moved){o.answer, o.answer ? 0 : taken, o.count};
}

tab_moved ref_text_to_groups(const uint8_t *text, size_t bytes, uint8_t *out, size_t room) {
    return move_from(as_text, text, bytes, put_all_groups, usable_for_groups(room), out);
}

tab_moved ref_groups_to_text(const uint8_t *groups, size_t bytes, uint8_t *out, size_t room) {
    return move_from(as_groups, groups, bytes, put_text, usable_for_text(room), out);
}

tab_outcome ref_check(const uint8_t *text, size_t bytes) {
    uint32_t first, taken;
    uint32_t fault = early_fault(text, bytes);
    if (fault == 0) fault = parse(text, bytes, &first, &taken);
    if (fault) return outcome(fault, 0);
    return outcome(0, taken);
}

/* The rest begins behind the records of the first list; at the end where there is no list, or only blanks are left. */
size_t ref_rest(const uint8_t *text, size_t bytes) {
    tab_outcome first = ref_check(text, bytes);
    if (first.answer != 0) return bytes;
    return only_blanks(text + first.count, bytes - first.count) ? bytes : first.count;
}
