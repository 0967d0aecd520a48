/*
 * The session's lines once more, from the rules alone: which lines there are, what each asks for, what is printed. What
 * the calls do is the reference's. The lines are random and depend on nothing but the seed.
 *
 *   session lines SEED   writes the lines to standard output, in pieces of odd sizes
 *   session hold SEED    holds standard input to what a session must print for them; one line of counts, or the first
 *                        line that is answered wrongly and status 1
 */
#include <stdio.h>
#include <stdlib.h>
#include <string.h>
#include <unistd.h>

#include "random.h"
#include "reference.h"
#include "tables.h"

/* ---- What a session prints */

typedef struct {
    const char *name;
    uint32_t code;    /* of an operation, else 0 */
    const char *uses; /* a number for each letter, but text for t */
} form;

static const form forms[] = {{"NEW", 0, "n"},    {"READ", 0, "ht"},  {"WRITE", 0, "h"}, {"PFA", 1, "av"},
                             {"PFL", 2, "ab"},   {"DECAP", 3, "ab"}, {"ADV", 4, "ab"},  {"BORROW", 5, "ab"},
                             {"ERASE", 6, "a"},  {"INV", 7, "a"},    {"CINV", 8, "ab"}, {"CONC", 9, "ab"},
                             {"FIRST", 10, "a"}, {"LENGTH", 11, "a"}};
enum { NEW, READ, WRITE, FORMS = sizeof forms / sizeof forms[0] };

/* What a line asks for. */
typedef struct {
    uint32_t number[2];
    const uint8_t *text;
    size_t bytes;
} request;

/* Takes a line apart; gives its form, or -1 if it has none. */
static int take_apart(const uint8_t *line, size_t bytes, request *r) {
    if (bytes > 200) return -1;
    for (int f = 0; f < FORMS; f++) {
        size_t at = strlen(forms[f].name);
        if (bytes < at || memcmp(line, forms[f].name, at) != 0) continue;
        for (int i = 0; forms[f].uses[i] != 0; i++) {
            if (at == bytes || line[at] != ' ') return -1;
            at++;
            if (forms[f].uses[i] == 't') {
                if (at == bytes) return -1;
                r->text = line + at;
                r->bytes = bytes - at;
                at = bytes;
                continue;
            }
            uint64_t value = 0;
            int digits = 0;
            for (; at < bytes && line[at] >= '0' && line[at] <= '9'; at++) {
                if (++digits > 10) return -1;
                value = 10 * value + (uint64_t)(line[at] - '0');
            }
            if (digits == 0 || value > 0xFFFFFFFF) return -1;
            r->number[i] = (uint32_t)value;
        }
        return at == bytes ? f : -1;
    }
    return -1;
}

static uint32_t table[16066], work[8000];
static int set_up;

static size_t table_words(void) { return 66 + 4 * (size_t)table[0]; }

static uint32_t free_cells(void) {
    uint32_t k = 0;
    if (!set_up) return 0;
    for (uint32_t c = FREE(table); c != 0; c = SUCCESSOR(table, c)) k++;
    return k;
}

static unsigned long long lines, not_lines, answered[19], done[FORMS];

/* What is printed for the line, and its size. */
static uint8_t printed[65520 + 100];

static size_t print_for(const uint8_t *line, size_t bytes) {
    static uint8_t text[65520];
    request r = {0};
    uint32_t answer = 1, result[2] = {3, 0};
    size_t more = 0;
    int f = take_apart(line, bytes, &r);
    lines++;
    if (f < 0) {
        not_lines++;
        memcpy(printed, "?\n", 2);
        return 2;
    }
    if (f == NEW) {
        uint32_t n = r.number[0];
        static uint32_t fresh[16066];
        answer = n >= 1 && n <= 4000 ? ref_set_up(fresh, 66 + 4 * (size_t)n, n) : 1;
        if (answer == 0) {
            memcpy(table, fresh, sizeof table);
            set_up = 1;
        }
    } else if (!set_up) {
        answer = 1;
    } else if (f == READ) {
        memcpy(text, r.text, r.bytes);
        while (r.bytes % 72 != 0) text[r.bytes++] = ' ';
        answer = ref_read(table, table_words(), work, 8000, r.number[0], text, r.bytes).answer;
    } else if (f == WRITE) {
        tab_outcome o = ref_write(table, table_words(), work, 8000, r.number[0], text, 65520);
        answer = o.answer;
        more = o.count;
        while (more > 0 && text[more - 1] == ' ') more--;
    } else {
        uint32_t script[4] = {forms[f].code, r.number[0], r.number[1], r.number[1]}, said[2];
        answer = ref_run(table, table_words(), work, 8000, script, 4, said, 2).answer;
        if (answer == 0) memcpy(result, said, sizeof said);
    }
    answered[answer]++;
    if (answer == 0) done[f]++;
    size_t at = (size_t)sprintf((char *)printed, "%u %u %u %u\n", answer, result[0], result[1], free_cells());
    if (f != WRITE || answer != 0) return at;
    memcpy(printed + at, text, more);
    printed[at + more] = '\n';
    return at + more + 1;
}

/* ---- Random lines */

enum { MOST = 8 << 20 };
static uint8_t input[MOST + 1];
static size_t size;

static void put(char c) {
    if (size < MOST) input[size++] = (uint8_t)c;
}

static void put_text(const char *s) {
    while (*s) put(*s++);
}

static void put_some(char c, uint32_t count) {
    while (count-- > 0) put(c);
}

static void put_number(uint32_t n) {
    char digits[20];
    uint32_t length = (uint32_t)sprintf(digits, "%u", n);
    if (chance(5)) put_some('0', below(11 - length)); /* ten digits at most */
    put_text(digits);
}

/* What may stand where a number should. */
static void put_odd_number(void) {
    static const char *const odd[] = {
        "",           "4294967295", "4294967296",  "4294967297",  "9999999999",  "10000000000",
        "0000000000", "0000000001", "00000000000", "00000000001", "04294967295", "99999999999",
        "+1",         "-1",         "0x1",         "1.",          "1,",          "1e1",
        "a",          "(1)",        "/",           ":",           "1/",          "1:"};
    put_text(odd[below(sizeof odd / sizeof odd[0])]);
}

static uint32_t holder(void) { return chance(3) ? (chance(50) ? 64 : any_word()) : chance(3) ? 63 : below(6); }

static void put_holder(void) { put_number(holder()); }

static void put_blank(void) {
    if (chance(99) || chance(60)) put(' ');
    else put_text(chance(30) ? "\t" : chance(50) ? "  " : "");
}

/* A list of some elements, of a size to fit in a line, faults now and then. */
static void put_atom(void) {
    if (chance(2)) put_text(chance(30) ? "40000000000" : chance(50) ? "000000000000" : "37777777777");
    else if (chance(1)) put("89 aA+;"[below(7)]);
    else {
        char digits[20];
        sprintf(digits, "%o", chance(80) ? below(100) : any_word());
        put_text(chance(5) ? "0" : "");
        put_text(digits);
    }
}

static void put_list(int level) {
    put('(');
    uint32_t length = below(4);
    for (uint32_t i = 0; i < length; i++) {
        if (i > 0 && !(chance(1) && chance(50))) put(',');
        if (level < 5 && chance(30)) put_list(level + 1);
        else put_atom();
    }
    if (!(chance(1) && chance(50))) put(')');
}

/* Ends a READ that began at `from` so that the line is of `bytes` bytes, most often by filling the record first. */
static void fill_read(size_t from, size_t text, size_t bytes) {
    if (chance(80))
        while ((size - text) % 72 != 0 && size - from < bytes) put(' ');
    while (size - from < bytes) put(chance(60) ? ' ' : (char)below(256));
    for (size_t i = from; i < size; i++)
        if (input[i] == '\n') input[i] = ' ';
}

/* A text of blanks: one, so many that a record is just full, or up to the line's end and over; at times a list last. */
static void put_blanks(size_t from, size_t text) {
    static const uint32_t edges[] = {71, 72, 73, 143, 144, 145};
    if (chance(40)) put(' ');
    else if (chance(50)) put_some(' ', edges[below(6)]);
    else put_some(' ', from_to(2, 201 - (uint32_t)(text - from)));
    if (chance(20)) put_list(5);
}

static void put_read(size_t from) {
    static const uint32_t edges[] = {198, 199, 200, 200, 200, 201, 201, 202, 260};
    put_text("READ");
    put_blank();
    put_holder();
    put_blank();
    size_t text = size;
    uint32_t kind = below(100);
    if (kind < 75) put_list(1);
    else if (kind < 80) { /* brackets alone: the line has room for 96 levels, or ends inside */
        uint32_t levels = from_to(80, 100), back = chance(70) ? levels : below(levels);
        put_some('(', levels);
        put_some(')', back);
    } else if (kind < 88) { /* a list that ends near the end of the line or of a record */
        size_t to = chance(50) ? edges[below(8)] - (text - from) : chance(50) ? from_to(71, 73) : from_to(143, 145);
        put_text("(1");
        while (size - text < to - 2) put_text(",7");
        if (size - text < to - 1) put('7');
        put(')');
    } else if (kind < 97) {
        put_list(1);
        fill_read(from, text, chance(70) ? edges[below(9)] : (text - from) + from_to(60, 150));
    } else if (kind == 97) put_text(chance(50) ? "" : "x");
    else put_blanks(from, text);
}

/* A line as it should be, but for what put_blank and put_read do. */
static void put_form(int f, size_t from) {
    if (f == READ) {
        put_read(from);
        return;
    }
    put_text(forms[f].name);
    for (const char *use = forms[f].uses; *use; use++) {
        put_blank();
        if (chance(1)) put_odd_number();
        else if (*use == 'v') put_number(any_word());
        else if (*use == 'b' && chance(60)) put_number(from_to(4, 9)); /* more often null */
        else if (*use != 'n') put_holder();
        else put_number(chance(70) ? from_to(1, 40) : chance(50) ? 4000 + below(2) : chance(50) ? 0 : any_word());
    }
}

static int any_form(void) {
    static const int often[] = {READ, READ, READ, WRITE, 3, 3, 3, 4,  4,  5,  6,  6,
                                7,    7,    7,    8,     8, 8, 9, 10, 11, 11, 12, 13};
    return chance(2) ? NEW : often[below(sizeof often / sizeof often[0])];
}

static void remove_byte(size_t at) {
    if (at >= size) return;
    memmove(input + at, input + at + 1, size - at - 1);
    size--;
}

static void insert_byte(size_t at, char c) {
    put(0);
    memmove(input + at + 1, input + at, size - at - 1);
    input[at] = (uint8_t)c;
}

/* Spoils the line that begins at `from` and has not ended yet. */
static void spoil(size_t from) {
    size_t at = from + below((uint32_t)(size - from) + 1), name = from, last = size;
    while (name < size && input[name] != ' ') name++;
    while (last > from && input[last - 1] != ' ') last--; /* the last word begins there */
    switch (below(18)) {
    case 0: put(' '); break;
    case 1: put('\r'); break;
    case 2: put(0); break;
    case 3: insert_byte(from, ' '); break;
    case 4: insert_byte(at, ' '); break;
    case 5: insert_byte(at, '\t'); break;
    case 6: insert_byte(at, 0); break;
    case 7: insert_byte(at, (char)below(256)); break;
    case 8: remove_byte(at), insert_byte(at, (char)below(256)); break;
    case 9: remove_byte(at); break;
    case 10: input[at] ^= 32; break; /* a letter's other case, no blank */
    case 11:
        for (size_t i = from; i < name; i++) input[i] |= 32;
        break;
    case 12: remove_byte(from + (name > from ? name - from - 1 : 0)); break; /* the name is too short */
    case 13: insert_byte(name, "SEDX1"[below(5)]); break;                    /* or too long */
    case 14: remove_byte(name); break;                                       /* the first number follows at once */
    case 15: put(' '), put_number(below(6)); break;                          /* a number too many */
    case 16: size = last - (last > from && chance(50)); break;               /* one missing */
    default: size = last, put_odd_number(); break;
    }
}

/* A line that is long whatever is in it; often it ends in what would be a line of its own. */
static void put_long(size_t from) {
    uint32_t bytes = chance(60) ? from_to(195, 205) : chance(80) ? from_to(201, 1500) : from_to(4000, 70000);
    if (chance(50)) put_form(any_form(), from);
    char c = " 0(x"[below(4)];
    if (chance(50)) put_some(c, bytes > size - from ? bytes - (uint32_t)(size - from) : 0);
    else
        while (size - from < bytes) put((char)below(256));
    if (chance(50)) put_form(any_form(), size);
}

/* Lines that build a deep list, near 200 levels, or a long one, near 65,520 bytes. */
static void put_deep(void) {
    uint32_t levels = from_to(198, 203);
    put_text(chance(50) ? "NEW 250\n" : "NEW 4000\n");
    for (uint32_t i = 1; i < levels; i++) put_text(i % 2 ? "PFL 0 1\n" : "PFL 1 0\n");
    put_text("WRITE 0\nWRITE 1\n");
}

/* Prefixes atoms that make the text of list 0, which is not null, so many characters longer, 2 or more. */
static void put_longer(uint32_t by) {
    while (by > 0) {
        uint32_t more = by > 13 ? 12 : by > 12 ? 11 : by; /* a comma and up to 11 digits, and never 1 left */
        put_text("PFA 0 ");
        put_number(1u << 3 * (more - 2));
        put('\n');
        by -= more;
    }
}

/* Doubles list 0: of x characters it gets 2x + 1. */
static void put_double(uint32_t times) {
    while (times-- > 0) put_text("BORROW 0 1\nPFL 0 1\n");
}

static void put_shared(void) {
    put_text("NEW 60\nPFA 0 7\n");
    if (chance(50)) {
        put_longer(251); /* 254 */
        put_double(8);   /* 65,279 */
        put_longer((chance(50) ? from_to(65518, 65522) : from_to(65440, 65530)) - 65279);
    } else {
        put_longer(from_to(2, 300));
        put_double(from_to(6, 14));
    }
    put_text("WRITE 0\nERASE 0\n");
}

static void put_line(void) {
    size_t from = size;
    uint32_t what = below(1000);
    if (what < 1) {
        put_deep();
        return;
    }
    if (what < 3) {
        put_shared();
        return;
    }
    if (what < 15) put_long(from);
    else if (what > 18) put_form(any_form(), from); /* else nothing */
    if (chance(8)) spoil(from);
    /* a line feed that came in makes two lines of one, which is as good */
    put('\n');
}

static void make_input(uint64_t seed) {
    start_random(seed, 0);
    uint32_t count = seed % 4 == 0 ? below(12) : 2000;
    size = 0;
    if (count > 0 && chance(70)) put_text("NEW 30\n");
    for (uint32_t i = 0; i < count; i++) put_line();
    /* the end: most often with no line feed, now and then in a long line, a lone byte or a blank */
    if (chance(10)) put_some('x', from_to(198, 5000));
    else if (chance(10)) put(chance(50) ? ' ' : '\n');
    else if (size > 0 && chance(60)) size--;
}

/* ---- The two ways to use it */

static int write_lines(void) {
    for (size_t at = 0; at < size;) {
        size_t piece = chance(30) ? from_to(1, 3) : chance(80) ? from_to(1, 400) : from_to(1, 9000);
        if (piece > size - at) piece = size - at;
        ssize_t got = write(1, input + at, piece);
        if (got <= 0) return 1;
        at += (size_t)got;
    }
    return 0;
}

static uint8_t have[1 << 16];
static size_t have_at, have_to;

/* The next byte of standard input, -1 at its end. */
static int next_byte(void) {
    if (have_at == have_to) {
        ssize_t got = read(0, have, sizeof have);
        if (got <= 0) return -1;
        have_at = 0;
        have_to = (size_t)got;
    }
    return have[have_at++];
}

static void show(const char *what, const uint8_t *bytes, size_t count) {
    printf("  %s: ", what);
    for (size_t i = 0; i < count && i < 300; i++)
        if (bytes[i] == '\\' || bytes[i] < 32 || bytes[i] > 126) printf("\\%03o", bytes[i]);
        else printf("%c", bytes[i]);
    printf(count > 300 ? ".. (%llu bytes)\n" : "\n", (unsigned long long)count);
}

static int hold(unsigned long long seed) {
    static uint8_t got[sizeof printed + 300];
    for (size_t at = 0, end; at < size; at = end + 1) {
        for (end = at; end < size && input[end] != '\n';) end++;
        size_t should = print_for(input + at, end - at), count = 0;
        int byte = 0;
        while (count < should && (byte = next_byte()) == printed[count]) got[count++] = (uint8_t)byte;
        if (count == should) continue;
        for (; byte >= 0 && byte != '\n' && count < sizeof got; byte = next_byte()) got[count++] = (uint8_t)byte;
        printf("DIFFERENT: session, line %llu. Replay: tests/session %llu\n", lines, seed);
        show("line", input + at, end - at);
        show("printed", got, count);
        show("should be", printed, should);
        return 1;
    }
    if (next_byte() >= 0) {
        printf("DIFFERENT: session prints more than %llu lines call for. Replay: tests/session %llu\n", lines, seed);
        return 1;
    }
    printf("seed %llu lines:%llu ?:%llu", seed, lines, not_lines);
    for (int a = 0; a < 19; a++) printf(" %d:%llu", a, answered[a]);
    for (int f = 0; f < FORMS; f++) printf(" %s:%llu", forms[f].name, done[f]);
    printf("\n");
    return 0;
}

int main(int argc, char **argv) {
    if (argc != 3) return 2;
    unsigned long long seed = strtoull(argv[2], NULL, 10);
    make_input(seed);
    return strcmp(argv[1], "lines") == 0 ? write_lines() : hold(seed);
}
