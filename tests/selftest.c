/*
 * Is the reference right? Three ways to tell, none of which looks at its code: the cases that the rules themselves
 * name; operations held to what they mean for the lists, which are written out as text and cut and joined there; and
 * soundness held to a second definition, counted pair by pair with a full table of who reaches whom. Groups have their
 * own file, groupcases.c.
 *
 * Built with -DLIBRARY it asks the same of the library: every ref_ below is then the library's call.
 */
#include <stdio.h>
#include <string.h>

#include "random.h"
#include "selftest.h"
#include "tables.h"

enum { MOST_SHOWN = 20 };
static int checks, wrong;

void is(const char *what, long got, long should) {
    checks++;
    if (got == should) return;
    if (wrong++ < MOST_SHOWN) printf("selftest: " SUBJECT ": %s: %ld, should be %ld\n", what, got, should);
}

void is_text(const char *what, const char *got, const char *should) {
    checks++;
    if (strcmp(got, should) == 0) return;
    if (wrong++ < MOST_SHOWN) printf("selftest: " SUBJECT ": %s: %.100s, should be %.100s\n", what, got, should);
}

void are_bytes(const char *what, const uint8_t *got, size_t got_bytes, const uint8_t *should, size_t bytes) {
    checks++;
    if (got_bytes == bytes && memcmp(got, should, bytes) == 0) return;
    if (wrong++ >= MOST_SHOWN) return;
    printf("selftest: " SUBJECT ": %s: %u bytes,", what, (unsigned)got_bytes);
    for (size_t i = 0; i < got_bytes && i < 12; i++) printf(" %u", got[i]);
    printf(", should be %u bytes,", (unsigned)bytes);
    for (size_t i = 0; i < bytes && i < 12; i++) printf(" %u", should[i]);
    printf("\n");
}

/* ---- A pool to play with */

uint32_t t[16066], work[8000];

size_t length(void) { return 66 + 4 * (size_t)t[0]; }

void set_up(uint32_t n) {
    t[0] = n;
    is("set up", ref_set_up(t, length(), n), 0);
}

/* One operation; gives the answer, and the result's words in kind and value (3 and 0 if refused). */
static uint32_t kind, value;

uint32_t operate(uint32_t code, uint32_t a, uint32_t b, uint32_t v) {
    uint32_t words[4] = {code, a, b, v}, result[2] = {3, 0};
    tab_outcome o = ref_run(t, length(), work, 8000, words, 4, result, 2);
    kind = result[0];
    value = result[1];
    is("operations done", o.count, o.answer == 0);
    return o.answer;
}

uint32_t free_now(void) {
    uint32_t k = 0;
    for (uint32_t c = FREE(t); c != 0; c = SUCCESSOR(t, c)) k++;
    return k;
}

uint8_t records[65592];

/* Fills a text up to its record. */
size_t record(const char *text) {
    size_t bytes = strlen(text);
    memcpy(records, text, bytes);
    while (bytes % 72 != 0) records[bytes++] = ' ';
    return bytes;
}

uint32_t reads(const char *text, uint32_t holder) {
    size_t bytes = record(text);
    return ref_read(t, length(), work, 8000, holder, records, bytes).answer;
}

static uint32_t checked(const char *text) { return ref_check(records, record(text)).answer; }

/* A holder's text without the fill; a message if it is refused. */
const char *written(uint32_t holder) {
    static char out[65521];
    tab_outcome o = ref_write(t, length(), work, 8000, holder, (uint8_t *)out, 65520);
    if (o.answer != 0) return "refused";
    uint32_t bytes = o.count;
    while (out[bytes - 1] == ' ') bytes--;
    out[bytes] = 0;
    return out;
}

/* ---- The rules' own examples */

static void line(const char *what, uint32_t answer, uint32_t a, uint32_t k, uint32_t v, uint32_t free_cells) {
    is(what, answer, a);
    is(what, kind, k);
    is(what, value, v);
    is(what, free_now(), free_cells);
}

static void the_session(void) {
    set_up(3);
    is("NEW 3", free_now(), 3);
    line("PFA 0 5", operate(TAB_PFA, 0, 0, 5), 0, 3, 0, 2);
    line("BORROW 0 1", operate(TAB_BORROW, 0, 1, 0), 0, 3, 0, 2);
    line("PFA 1 7", operate(TAB_PFA, 1, 0, 7), 0, 3, 0, 1);
    line("DECAP 0 2", operate(TAB_DECAP, 0, 2, 0), 11, 3, 0, 1);
    line("ERASE 1", operate(TAB_ERASE, 1, 0, 0), 0, 2, 1, 2);
    is_text("WRITE 0", written(0), "(5)");
}

static uint32_t order_of(uint32_t c) {
    uint32_t most = 0;
    for (; c != 0; c = SUCCESSOR(t, c)) {
        uint32_t order = TYPE(t, c) == 1 ? order_of(ELEMENT(t, c)) : 0;
        if (order > most) most = order;
    }
    return most + 1;
}

static void measures(const char *text, uint32_t len, uint32_t order, uint32_t extent) {
    set_up(20);
    is(text, reads(text, 0), 0);
    operate(TAB_LENGTH, 0, 0, 0);
    is(text, value, len);
    is(text, order_of(HOLDS(t, 0)), order);
    is(text, 20 - free_now(), extent);
}

const char *brackets(int levels) {
    static char text[500];
    memset(text, '(', (size_t)levels);
    memset(text + levels, ')', (size_t)levels);
    text[2 * levels] = 0;
    return text;
}

static void text_cases(void) {
    measures("()", 0, 1, 0);
    measures("(())", 1, 2, 1);
    measures("((3),1,(1,2))", 3, 2, 6);
    is("characters", (long)strlen(written(0)), 13);
    is("INV", operate(TAB_INV, 0, 0, 0), 0);
    is_text("reversed", written(0), "((1,2),1,(3))");
    set_up(4);
    is("(012)", reads("(012)", 0), 0);
    is("ten", (operate(TAB_FIRST, 0, 0, 0), value), 10);
    is_text("(012)", written(0), "(12)");
    is("largest atom", reads("(37777777777)", 1), 0);
    is("largest atom", (operate(TAB_FIRST, 1, 0, 0), value), 4294967295);
    static const struct {
        const char *text;
        uint32_t answer;
    } cases[] = {{"(40000000000)", 16},
                 {"(000000000000)", 16},
                 {"(40000000000", 16},
                 {"(37777777778)", 15},
                 {"(00000000000)", 0},
                 {"(1,)", 15},
                 {"(,1)", 15},
                 {"(1(2))", 15},
                 {"(8)", 15},
                 {" (1)", 15},
                 {"(1", 15},
                 {"(1) 2", 15},
                 {"(1 )", 15},
                 {"(1))", 15},
                 {"1", 15},
                 {"((1)(2))", 15},
                 {"(1,,2)", 15},
                 {"(()())", 15},
                 {"((),())", 0},
                 {"(1)", 0},
                 {")", 15},
                 {"(1)(2)", 15},
                 {"(37777777777,0)", 0}};
    for (size_t i = 0; i < sizeof cases / sizeof cases[0]; i++)
        is(cases[i].text, checked(cases[i].text), cases[i].answer);
    is("depth 200", checked(brackets(200)), 0);
    is("depth 201", checked(brackets(201)), 17);
    char text[500];
    memset(text, '(', 200);
    strcpy(text + 200, ",(");
    is("200 levels, then a comma", checked(text), 15);
    is("0 bytes", ref_check(records, 0).answer, 14);
    is("71 bytes", ref_check(records, 71).answer, 13);
    is("65,592 bytes", ref_check(records, 65592).answer, 13);
    memset(text, '7', 72);
    for (int i = 2; i < 71; i += 2) text[i] = ',';
    text[0] = '(', text[70] = '7', text[71] = ')', text[72] = 0;
    text[68] = '7'; /* "..7777)" ends the record */
    is("a full record", ref_check(records, record(text)).count, 72);
    text[71] = '7';
    is("runs out at the end of a record", checked(text), 15);
    strcpy(text + 72, ")");
    is("over the edge", ref_check(records, record(text)).count, 144);
    record("(1)");
    memset(records + 72, '!', 72);
    is("later records are not looked at", ref_check(records, 144).count, 72);
    is("the rest is the later record", (long)ref_rest(records, 144), 72);
    is("no rest behind the last list", (long)ref_rest(records, 72), 72);
    is("no rest of a wrong size", (long)ref_rest(records, 71), 71);
    is("no rest of nothing", (long)ref_rest(records, 0), 0);
}

/* ---- Blank records */

/* Blank records, a text in front of them and one at some place among them. */
static void blank_records(const char *first, size_t at, const char *then) {
    memset(records, ' ', sizeof records);
    memcpy(records + at, then, strlen(then));
    memcpy(records, first, strlen(first));
}

/* The check's answer and the bytes it takes, and where the rest begins. */
static void checks_and_rests(const char *what, size_t bytes, uint32_t answer, uint32_t taken, size_t rest) {
    tab_outcome o = ref_check(records, bytes);
    is(what, o.answer, answer);
    is(what, o.count, taken);
    is(what, (long)ref_rest(records, bytes), (long)rest);
}

static void blank_texts(void) {
    blank_records("", 0, "");
    for (size_t k = 1; k <= 910; k++) checks_and_rests("blank records alone", 72 * k, 14, 0, 72 * k);
    checks_and_rests("911 blank records", 65592, 13, 0, 65592);
    checks_and_rests("71 blanks", 71, 13, 0, 71);
    checks_and_rests("73 blanks", 73, 13, 0, 73);
    for (int bit = 0; bit < 8; bit++) { /* every byte that is a blank but for one bit, in every place of two words */
        for (size_t at = 0; at < 16; at++) {
            blank_records("", 65504 + at, "");
            records[65504 + at] = (uint8_t)(' ' ^ 1 << bit);
            checks_and_rests("910 records, blank but for a byte near the end", 65520, 15, 0, 65520);
        }
    }
    blank_records("", 65519, "(");
    checks_and_rests("910 records, blank but for the last byte", 65520, 15, 0, 65520);
    checks_and_rests("the 909 blank records before them", 65448, 14, 0, 65448);
    blank_records("", 1, "(1)");
    checks_and_rests("a blank and a list in one record", 72, 15, 0, 72);
    blank_records("", 72, "(1)");
    checks_and_rests("a blank record before a list", 144, 15, 0, 144);
    checks_and_rests("a blank record before a list that is not lent", 72, 14, 0, 72);
    blank_records("\t", 72, "");
    checks_and_rests("a tab is no blank", 72, 15, 0, 72);
}

static void blank_rests(void) {
    blank_records("(1)", 0, "");
    checks_and_rests("a list and three blank records", 288, 0, 72, 288);
    checks_and_rests("a list and 909 blank records", 65520, 0, 72, 65520);
    blank_records("(1)", 65519, "x");
    checks_and_rests("a list and 909 records, blank but for the last byte", 65520, 0, 72, 72);
    blank_records("(1)", 215, "x");
    checks_and_rests("a list and two records, blank but for the last byte", 216, 0, 72, 72);
    blank_records("(1)", 72, "x");
    checks_and_rests("a list and two records, blank but for the first byte", 216, 0, 72, 72);
    blank_records("(1)", 144, "(2)");
    checks_and_rests("a list, a blank record, a list", 216, 0, 72, 72);
    is("the check of that rest", ref_check(records + 72, 144).answer, 15);
    is("no rest of that rest", (long)ref_rest(records + 72, 144), 144);
    blank_records("(1)", 72, "(2)");
    checks_and_rests("two lists and a blank record", 216, 0, 72, 72);
    checks_and_rests("the first of them alone", 72, 0, 72, 72);
    is("the rest behind the second", (long)ref_rest(records + 72, 144), 144);
}

/* Reads into a pool of 10 cells and gives the answer, which must leave table and work space as they were. */
static uint32_t reads_untouched(size_t table_words, size_t work_words, uint32_t holder, size_t bytes) {
    uint32_t kept[106], lent[21];
    memcpy(kept, t, sizeof kept);
    memset(lent, 9, sizeof lent);
    tab_outcome o = ref_read(t, table_words, lent, work_words, holder, records, bytes);
    is("nothing is taken", o.count, 0);
    is("the table is untouched", memcmp(kept, t, sizeof kept), 0);
    for (int i = 0; i < 21; i++) is("the work space is untouched", lent[i], 0x09090909);
    return o.answer;
}

/* Blanks alone are 14 behind 1, 2, 7 and 13, and before 5 and 10. */
static void blank_reads(void) {
    set_up(10);
    is("a list", reads("(1,2)", 0), 0);
    blank_records("", 0, "");
    is("blanks", reads_untouched(106, 20, 1, 72), 14);
    is("as many blanks as there can be", reads_untouched(106, 21, 63, 65520), 14);
    is("blanks, a table of a wrong length", reads_untouched(105, 20, 1, 72), 1);
    is("blanks, no table", reads_untouched(0, 0, 64, 72), 1);
    is("blanks, short work space", reads_untouched(106, 19, 1, 72), 2);
    is("blanks, a bad holder and short work space", reads_untouched(106, 19, 64, 72), 2);
    is("blanks, a bad holder", reads_untouched(106, 20, 64, 72), 7);
    is("71 blanks, a bad holder", reads_untouched(106, 20, 64, 71), 7);
    is("71 blanks", reads_untouched(106, 20, 1, 71), 13);
    is("911 blank records", reads_untouched(106, 20, 1, 65592), 13);
    is("blanks into an occupied holder", reads_untouched(106, 20, 0, 72), 14);
    COUNT(t, 1) = 7;
    is("blanks on an unsound table", reads_untouched(106, 20, 1, 72), 14);
    is("blanks into an occupied holder of it", reads_untouched(106, 20, 0, 72), 14);
    is("no text on an unsound table", reads_untouched(106, 20, 1, 0), 14);
    blank_records("", 71, "x");
    is("blanks and a letter on an unsound table", ref_read(t, 106, work, 20, 1, records, 72).answer, 5);
    COUNT(t, 1) = 1;
    is("blanks and a letter into an occupied holder", ref_read(t, 106, work, 20, 0, records, 72).answer, 10);
    is("blanks and a letter", ref_read(t, 106, work, 20, 1, records, 72).answer, 15);
    is("a blank before a list", reads(" (1)", 1), 15);
    is("the list is still there", operate(TAB_LENGTH, 0, 0, 0), 0);
    is_text("the list is still there", written(0), "(1,2)");
}

/* A file of three lists, filled up with blank records: each read goes on behind the one before, until END. */
static void padded_file(void) {
    size_t at = 0;
    uint32_t lists = 0, rests = 0;
    tab_outcome o;
    blank_records("(1)", 72, "(2,3)");
    memcpy(records + 144, "((4))", 5);
    set_up(10);
    for (; (o = ref_read(t, length(), work, 8000, lists, records + at, 720 - at)).answer == 0; at += o.count) lists++;
    is("the end of the file", o.answer, 14);
    is("where the last list ends", (long)at, 216);
    is("lists of the file", lists, 3);
    is_text("the last list", written(2), "((4))");
    for (at = 0; at < 720; at += ref_rest(records + at, 720 - at)) rests++;
    is("parts of the file", rests, 3);
}

static void pool_cases(void) {
    set_up(4);
    is("((3),1)", reads("((3),1)", 0), 0);
    is("ERASE", operate(TAB_ERASE, 0, 0, 0), 0);
    is("freed", value, 3);
    uint32_t chain[] = {2, 1, 3, 4, 0}, c = FREE(t);
    for (int i = 0; i < 5; i++) {
        is("free chain", c, chain[i]);
        if (c != 0) c = SUCCESSOR(t, c);
    }
    set_up(1);
    is("PFL", operate(TAB_PFL, 0, 1, 0), 0);
    is_text("PFL of null to null", written(0), "(())");
    for (uint32_t room = 2; room <= 3; room++) {
        uint32_t before[16066];
        set_up(3 + room);
        reads("(1,2,3)", 0);
        memcpy(before, t, sizeof t);
        is("CINV", operate(TAB_CINV, 0, 1, 0), room == 3 ? 0 : 12);
        is_text("CINV", written(1), room == 3 ? "(3,2,1)" : "()");
        is("CINV moves", memcmp(before, t, sizeof t) != 0, room == 3);
    }
    is("N 4,000", ref_set_up(t, 16066, 4000), 0);
    is("N 0", ref_set_up(t, 66, 0), 1);
    is("N 4,001", ref_set_up(t, 16070, 4001), 1);
    set_up(400);
    is("200 levels", reads(brackets(200), 0), 0);
    is("200 levels", (long)strlen(written(0)), 400);
    is("201 levels", operate(TAB_PFL, 1, 0, 0), 0);
    uint8_t out[216];
    is("201 levels in 216 bytes", ref_write(t, length(), work, 8000, 1, out, 216).answer, 17);
    is("201 levels in 144 bytes", ref_write(t, length(), work, 8000, 1, out, 144).answer, 18);
}

/* What is easy to get wrong. */
static void traps(void) {
    set_up(10);
    reads("(1,2,3)", 0);
    operate(TAB_BORROW, 0, 2, 0);
    is("ADV", operate(TAB_ADV, 2, 3, 0), 0);
    is("the first count", COUNT(t, HOLDS(t, 0)), 1);
    is("INV where the tail is held", operate(TAB_INV, 0, 0, 0), 11);
    is("DECAP where the tail is held", operate(TAB_DECAP, 0, 3, 0), 0);
    is("both name the tail now", COUNT(t, HOLDS(t, 0)), 2);
    is("ERASE of a shared list", operate(TAB_ERASE, 0, 0, 0), 0);
    is("nothing freed", value, 0);
    is("later counts stay", COUNT(t, SUCCESSOR(t, HOLDS(t, 2))), 1);
    is("CONC with itself", operate(TAB_CONC, 2, 2, 0), 8);
    is("CONC of null with itself", operate(TAB_CONC, 7, 7, 0), 8);
    set_up(3);
    FREE(t) = 3; /* cells 1 and 2 in a ring that no holder reaches */
    COUNT(t, 1) = COUNT(t, 2) = 1;
    SUCCESSOR(t, 1) = 2, SUCCESSOR(t, 2) = 1;
    work[0] = work[5] = work[6] = 9;
    is("a ring", ref_run(t, 78, work, 7, NULL, 0, NULL, 0).answer, 5);
    is("work space", work[0] + work[5], 0);
    is("work space behind", work[6], 9);
}

/* ---- Operations by what they mean for the lists */

static char before[8][9000], after[8][9000];

static void copy(char *to, const char *from) { memmove(to, from, strlen(from) + 1); }

static void write_all(char texts[8][9000]) {
    for (uint32_t h = 0; h < 8; h++) copy(texts[h], written(h));
}

size_t element_end(const char *s) {
    size_t i = 0;
    for (int level = 0; s[i] && !(level == 0 && (s[i] == ',' || s[i] == ')')); i++) {
        if (s[i] == '(') level++;
        if (s[i] == ')') level--;
    }
    return i;
}

static void reversed_text(char *to, const char *list) {
    char done[9000] = "";
    const char *s = list + 1;
    while (*s && *s != ')') {
        size_t end = element_end(s);
        char more[9000];
        memcpy(more, s, end);
        copy(more + end, done[0] ? "," : "");
        strcat(more, done);
        copy(done, more);
        s += end;
        if (*s == ',') s++;
    }
    copy(to, "(");
    strcat(to, done);
    strcat(to, ")");
}

static void prefixed_text(char *to, const char *element, const char *list) {
    char made[9000] = "(";
    strcat(made, element);
    if (strcmp(list, "()") != 0) strcat(made, ",");
    strcat(made, list + 1);
    copy(to, made);
}

/* Splits a list into its first element and the rest. */
static void split_text(char *first, char *rest, const char *list) {
    char tail[9000] = "(";
    size_t end = element_end(list + 1);
    memcpy(first, list + 1, end);
    first[end] = 0;
    strcat(tail, list + 1 + end + (list[1 + end] == ','));
    copy(rest, tail);
}

static void joined_text(char *to, const char *a, const char *b) {
    char made[9000];
    copy(made, a);
    if (strcmp(b, "()") == 0) return;
    if (strcmp(a, "()") == 0) {
        copy(to, b);
        return;
    }
    copy(made + strlen(made) - 1, ",");
    strcat(made, b + 1);
    copy(to, made);
}

uint32_t octal(const char *s) {
    uint32_t v = 0;
    for (; *s >= '0' && *s <= '7'; s++) v = v * 8 + (uint32_t)(*s - '0');
    return v;
}

/* The cells that some holder reaches. */
static char reached[4001];

static uint32_t reach(uint32_t c) {
    uint32_t k = 0;
    for (; c != 0 && !reached[c]; c = SUCCESSOR(t, c)) {
        reached[c] = 1;
        k++;
        if (TYPE(t, c) == 1) k += reach(ELEMENT(t, c));
    }
    return k;
}

static uint32_t all_reached(void) {
    uint32_t k = 0;
    memset(reached, 0, sizeof reached);
    for (uint32_t h = 0; h < 64; h++) k += reach(HOLDS(t, h));
    return k;
}

/* Does the operation and holds the texts to what it means. The table has 8 lists that are not too long. */
static void operate_and_compare(uint32_t code, uint32_t a, uint32_t b, uint32_t v) {
    char first[9000] = "", rest[9000], number[40];
    uint32_t held = all_reached();
    write_all(before);
    if (operate(code, a, b, v) != 0) return;
    write_all(after);
    uint32_t should_kind = 3, should_value = 0;
    switch (code) {
    case TAB_PFA:
        sprintf(number, "%o", v);
        prefixed_text(before[a], number, before[a]);
        break;
    case TAB_PFL:
        prefixed_text(before[a], before[b], before[a]);
        copy(before[b], "()");
        break;
    case TAB_DECAP:
    case TAB_ADV:
        split_text(first, before[a], before[a]);
        if (first[0] == '(') copy(before[b], first);
        break;
    case TAB_BORROW: copy(before[b], before[a]); break;
    case TAB_ERASE:
        copy(before[a], "()");
        should_kind = 2;
        should_value = held - all_reached();
        break;
    case TAB_INV: reversed_text(before[a], before[a]); break;
    case TAB_CINV: reversed_text(before[b], before[a]); break;
    case TAB_CONC:
        joined_text(before[a], before[a], before[b]);
        copy(before[b], "()");
        break;
    case TAB_FIRST: split_text(first, rest, before[a]); break;
    case TAB_LENGTH:
        should_kind = 2;
        for (const char *s = before[a] + 1; *s != ')'; s += s[0] == ',') {
            should_value++;
            s += element_end(s);
        }
        break;
    }
    if (first[0]) {
        should_kind = first[0] == '(';
        should_value = first[0] == '(' ? 0 : octal(first);
    }
    is("kind", kind, should_kind);
    is("value", value, should_value);
    for (uint32_t h = 0; h < 8; h++) is_text("a list after an operation", after[h], before[h]);
    is("free cells are those that nobody reaches", free_now(), (long)t[0] - (long)all_reached());
    is("the table is sound", ref_run(t, length(), work, 8000, NULL, 0, NULL, 0).answer, 0);
}

/* A list was read into a new pool: cell k has the element that begins k-th in the text. */
static void in_order(const char *text) {
    uint32_t k = 0;
    for (size_t i = 1; text[i]; i++) {
        if (text[i] == ',' || text[i] == ')' || (text[i] != '(' && text[i - 1] != '(' && text[i - 1] != ',')) continue;
        k++;
        is("the k-th element's type", TYPE(t, k), text[i] == '(');
        if (text[i] != '(') is("the k-th element", ELEMENT(t, k), octal(text + i));
    }
    is("cells of the list", t[0] - free_now(), k);
}

/* Lists must stay short enough to be written out: the pool is small, and a story ends when they get long. */
static void meaning(void) {
    for (uint64_t story = 0; story < 300; story++) {
        start_random(1, story);
        set_up(from_to(1, 14));
        for (int i = 0; i < 60; i++) {
            uint32_t longest = 0;
            for (uint32_t h = 0; h < 8; h++) {
                uint32_t bytes = (uint32_t)strlen(written(h));
                if (bytes > longest) longest = bytes;
            }
            if (longest > 1000) break;
            uint32_t code = from_to(1, 11), a = below(8), b = below(8);
            operate_and_compare(code, a, b, any_word());
            if (chance(10)) { /* out and in again, in a pool of its own */
                char text[9000];
                static uint32_t kept[16066];
                copy(text, written(below(8)));
                memcpy(kept, t, sizeof t);
                set_up(1100);
                uint32_t answer = reads(text, 5);
                is("out and in again", answer, 0);
                is_text("out and in again", written(5), text);
                in_order(text);
                memcpy(t, kept, sizeof t);
            }
        }
    }
}

/* ---- Soundness by its second definition */

static int sound_by_pairs(void) {
    enum { MOST = 12 };
    uint32_t n = t[0];
    char to[MOST + 1][MOST + 1];
    memset(to, 0, sizeof to);
#define LIVE(c) ((c) >= 1 && (c) <= n && COUNT(t, c) > 0)
#define RIGHT(c) ((c) == 0 || LIVE(c))
    for (uint32_t h = 0; h < 64; h++)
        if (!RIGHT(HOLDS(t, h))) return 0;
    for (uint32_t c = 1; c <= n; c++) {
        uint32_t met = 0, names = 0, at = FREE(t);
        for (uint32_t step = 0; step < 2 * n + 2 && at != 0; step++) { /* twice round any ring */
            if (at > n) return 0;
            met += at == c;
            at = SUCCESSOR(t, at);
        }
        if (at != 0 || met != !LIVE(c)) return 0;
        if (!LIVE(c)) continue;
        if (TYPE(t, c) != 0 && TYPE(t, c) != 1) return 0;
        if (!RIGHT(SUCCESSOR(t, c))) return 0;
        if (TYPE(t, c) == 1 && !RIGHT(ELEMENT(t, c))) return 0;
        if (SUCCESSOR(t, c) != 0) to[c][SUCCESSOR(t, c)] = 1;
        if (TYPE(t, c) == 1 && ELEMENT(t, c) != 0) to[c][ELEMENT(t, c)] = 1;
        for (uint32_t h = 0; h < 64; h++) names += HOLDS(t, h) == c;
        for (uint32_t d = 1; d <= n; d++) {
            names += LIVE(d) && SUCCESSOR(t, d) == c;
            names += LIVE(d) && TYPE(t, d) == 1 && ELEMENT(t, d) == c;
        }
        if (names != COUNT(t, c)) return 0;
    }
    for (uint32_t by = 1; by <= n; by++)
        for (uint32_t c = 1; c <= n; c++)
            for (uint32_t d = 1; d <= n; d++)
                if (to[c][by] && to[by][d]) to[c][d] = 1;
    for (uint32_t c = 1; c <= n; c++)
        if (to[c][c]) return 0;
    return 1;
}

static void soundness(void) {
    int sound = 0;
    for (uint64_t story = 0; story < 20000; story++) {
        start_random(2, story);
        uint32_t n = from_to(1, story % 4 == 0 ? 2 : 12);
        if (story % 4 == 0) make_noise(t, n);
        else make_sound(t, n);
        if (chance(80)) damage(t, n);
        if (chance(20)) damage(t, n);
        int should = sound_by_pairs();
        is("soundness", ref_run(t, length(), work, 8000, NULL, 0, NULL, 0).answer, should ? 0 : 5);
        sound += should;
    }
    is("enough sound tables", sound > 2000 && sound < 18000, 1);
}

/* ---- The header's own helpers and places */

static void the_header(void) {
#ifdef LIBRARY
    is("the library's version is the header's", tab_version(), TAB_VERSION);
#endif
    set_up(7);
    is("reads", reads("((3),1)", 5), 0);
    is("free cells", tab_free_cells(t, length()), free_now());
    is("free cells of a table of a wrong size", tab_free_cells(t, length() - 1) + tab_free_cells(NULL, 0), 0);
    is("the first free cell", t[TAB_FREE_AT], FREE(t));
    is("a holder", t[TAB_HOLDER_AT(5)], HOLDS(t, 5));
    is("a type", t[TAB_TYPE_AT(1)], TYPE(t, 1));
    is("an element", t[TAB_ELEMENT_AT(3)], ELEMENT(t, 3));
    is("a count", t[TAB_COUNT_AT(2)], COUNT(t, 2));
    is("a successor", t[TAB_SUCCESSOR_AT(1)], SUCCESSOR(t, 1));
    t[TAB_SUCCESSOR_AT(7)] = 4;
    is("free cells of a ring", tab_free_cells(t, length()), 7);
    t[TAB_SUCCESSOR_AT(5)] = 8;
    is("free cells up to a number out of range", tab_free_cells(t, length()), 2);
    is_text("the first answer", tab_answer_name(TAB_DONE), "DONE");
    is_text("the last answer", tab_answer_name(TAB_GROUPS), "GROUPS");
    is_text("an answer between", tab_answer_name(TAB_NO_ROOM), "NO ROOM");
    is_text("no answer", tab_answer_name(TAB_GROUPS + 1), "unknown");
}

int main(void) {
    the_header();
    the_session();
    text_cases();
    blank_texts();
    blank_rests();
    blank_reads();
    padded_file();
    pool_cases();
    traps();
    meaning();
    soundness();
    groups_cases();
    printf("selftest: %d checks of the " SUBJECT ", %d wrong\n", checks, wrong);
    return wrong > 0;
}
