/* Making texts: a list is put down character by character, filled up to its record, and then damaged or not. */
#include "texts.h"

#include <string.h>

#include "random.h"

static text *to;

static void put(int ch) {
    if (to->bytes < MOST_BYTES) to->byte[to->bytes++] = (uint8_t)ch;
}

static void put_all(const char *s) {
    while (*s) put(*s++);
}

static void put_digits(uint32_t digits) {
    for (uint32_t i = 0; i < digits; i++) put('0' + (int)below(8));
}

static void put_atom(void) {
    static const char *const edges[] = {"37777777777",  "00000000000",  "30000000000", "10000000000",
                                        "7777777777",   "00000000001",  "0",           "00",
                                        "40000000000",  "47777777777",  "77777777777", "000000000000",
                                        "037777777777", "400000000000", "37777777778", "3777777777777"};
    to->extent++;
    switch (below(10)) {
    case 0: put_all(edges[below(8)]); break;
    case 1: put_digits(from_to(1, 10)); break;
    case 2:
        put('0' + (int)below(4));
        put_digits(10);
        break;
    case 3:
        if (chance(12)) put_all(edges[below(16)]);
        else put('7');
        break;
    default: put_digits(1); break;
    }
}

/* Puts a list of up to `budget` elements in all, and gives what is left of them. */
static uint32_t put_list(uint32_t budget, uint32_t lists) {
    uint32_t elements = chance(20) ? 0 : 1 + below(4);
    put('(');
    for (uint32_t i = 0; i < elements && budget > 0; i++) {
        if (i > 0) put(',');
        budget--;
        if (chance(lists)) {
            to->extent++;
            budget = put_list(budget, lists);
        } else {
            put_atom();
        }
    }
    put(')');
    return budget;
}

/* A list of exactly so many characters, 3 at least: atoms of one to ten digits, some as lists of one atom. */
static void put_exactly(uint32_t characters) {
    uint32_t left = characters - 2;
    put('(');
    while (left > 0) {
        uint32_t digits = left < 10 && chance(70) ? left : from_to(1, left < 10 ? left : 10);
        if (digits == left || digits + 1 < left) {
            int as_list = chance(30) && digits > 2;
            if (as_list) {
                put('(');
                put_digits(digits - 2);
                put(')');
                to->extent++;
            } else {
                put_digits(digits);
            }
            to->extent++;
            left -= digits;
            if (left > 0) {
                put(',');
                left--;
            }
        }
    }
    put(')');
}

static void put_deep(void) {
    uint32_t levels = from_to(197, 203), closed = chance(85) ? levels : below(levels + 2);
    if (chance(30)) {
        put_all("((),");
        put_all(chance(50) ? "7" : "1,37777777777");
        put(',');
        to->extent += 4;
        levels -= 1;
        closed = levels + 1;
    }
    for (uint32_t i = 0; i < levels; i++) put('(');
    to->extent += levels;
    if (chance(30)) put_atom();
    if (chance(10)) put_all(",(");
    for (uint32_t i = 0; i < closed; i++) put(')');
}

static int odd_character(void) {
    static const char odd[] = "()(),,,01234567 89\n\t.;'*+-/:abO";
    switch (below(12)) {
    case 0: return (int)below(256);
    case 1: return 0;
    case 2: return 0x80 + odd[below(sizeof odd)];
    default: return odd[below(sizeof odd - 1)];
    }
}

/* Changes, takes out or puts in one byte; the whole length stays. `used` bytes have the list. */
static void damage_text(text *x, size_t used) {
    size_t at = chance(80) ? below((uint32_t)used + 1) : below((uint32_t)x->bytes);
    if (x->bytes == 0) return;
    if (at >= x->bytes) at = x->bytes - 1;
    switch (below(5)) {
    case 0:
        memmove(x->byte + at, x->byte + at + 1, x->bytes - at - 1);
        x->byte[x->bytes - 1] = ' ';
        break;
    case 1:
        memmove(x->byte + at + 1, x->byte + at, x->bytes - at - 1);
        x->byte[at] = (uint8_t)odd_character();
        break;
    case 2: /* a character of the form where another stood */ x->byte[at] = (uint8_t) "(),0"[below(4)]; break;
    default: x->byte[at] = (uint8_t)odd_character(); break;
    }
}

static void put_large(void) {
    switch (below(4)) {
    case 0: put_exactly(from_to(65515, 65522)); break;
    case 1: put_exactly(from_to(3, 65000)); break;
    case 2: put_list(5000, 20); break;
    default:
        put('(');
        for (uint32_t i = 0, n = from_to(3990, 4005); i < n; i++) {
            if (i > 0) put(',');
            put('1');
            to->extent++;
        }
        put(')');
        break;
    }
}

/* A byte that is no blank; often it is one but for a bit. */
static uint8_t no_blank(void) {
    int ch = chance(60) ? ' ' ^ 1 << below(8) : odd_character();
    return ch == ' ' ? '(' : (uint8_t)ch;
}

/* The first byte from `from` on, the last before `end`, or any between. */
static size_t some_place(size_t from, size_t end) {
    switch (below(3)) {
    case 0: return from;
    case 1: return end - 1;
    default: return from_to((uint32_t)from, (uint32_t)end - 1);
    }
}

/* The place is drawn before the byte: in one expression C would leave the order open. */
static void put_no_blank(text *x, size_t from, size_t end) {
    size_t at = some_place(from, end);
    x->byte[at] = no_blank();
}

static void fill_record(void) {
    while (to->bytes % 72 != 0) put(' ');
}

static void start_text(text *x) {
    to = x;
    x->bytes = 0;
    x->extent = 0;
}

void make_padded(text *x, uint32_t records, enum padded kind) {
    size_t list = 0, end = 72 * (size_t)records;
    start_text(x);
    if (kind == LIST_FIRST || kind == LIST_AND_MORE) {
        put_list(below(12), 30);
        fill_record();
        list = x->bytes;
    }
    if (kind == LIST_LAST) end -= 72;
    if (end > list) {
        memset(x->byte + list, ' ', end - list);
        x->bytes = end;
    }
    if (kind == BUT_ONE) put_no_blank(x, 0, end);
    if (kind == LIST_AND_MORE && end > list) put_no_blank(x, list, end);
    if (kind == LIST_LAST) {
        put_list(below(12), 30);
        fill_record();
    }
}

/* A list in some shape, and records after it; then some damage. */
static void make_list(text *x, int large) {
    start_text(x);
    uint32_t kind = below(100), lists = from_to(5, 74), records = from_to(1, 3);
    if (large) put_large();
    else if (kind < 70) put_list(chance(85) ? below(12) : below(60), lists);
    else if (kind < 90)
        put_exactly(72 * records - 2 + below(5)); /* up to two characters short of the edge, or over it */
    else if (kind < 93) put_deep();
    else if (kind < 97) put_list(0, 0);
    else if (kind < 98) fill_random(x->byte, x->bytes = 72);
    else if (kind < 99) put(' ');
    size_t used = x->bytes;
    fill_record();
    if (chance(20)) { /* records after the list */
        size_t end = x->bytes + 72 * (1 + below(2));
        int noise = chance(50);
        while (x->bytes < end && x->bytes < MOST_BYTES) put(noise ? (int)below(256) : ' ');
    }
    if (chance(40)) damage_text(x, used);
    if (chance(8)) damage_text(x, used);
}

/* Few records most often, as many as a text can have now and then. */
static uint32_t some_records(void) {
    if (chance(95)) return from_to(1, 5);
    return chance(30) ? from_to(908, 912) : from_to(6, 910);
}

void make_text(text *x, int large) {
    if (!large && chance(8)) {
        uint32_t records = some_records();
        make_padded(x, records, (enum padded)below(PADDED));
    } else {
        make_list(x, large);
    }
    if (chance(4) && x->bytes > 72) x->bytes -= 72;
    if (chance(5)) {
        switch (below(4)) {
        case 0: x->bytes = 0; break;
        case 1: put(' '); break;
        case 2:
            if (x->bytes > 0) x->bytes--;
            break;
        default: x->bytes = below((uint32_t)x->bytes + 1); break;
        }
    }
    if (chance(1) && large) {
        while (x->bytes < 65592) put(' ');
        x->bytes = 65592;
    }
}
