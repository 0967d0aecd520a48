/*
 * Groups: are the reader, the writer and both moves right? Fixed cases at every edge of the rules; the order of
 * refusals, with one fault mended after the other; a second definition of a list's groups, by cutting its text; and a
 * second one of what is refused, by listing all lists of up to three bytes. Every call here is looked at for what it
 * leaves of the table, the work space, the input and the output.
 */
#include <stdio.h>
#include <string.h>

#include "random.h"
#include "selftest.h"
#include "tables.h"

enum { MOST = 65520, FILLED = 0xEE };

static uint8_t groups[MOST + 80], out[MOST + 80];

/* ---- The calls, each with what it must leave alone */

static void output_is_kept_from(size_t at) {
    size_t i = at;
    while (i < sizeof out && out[i] == FILLED) i++;
    is("output behind what was written is untouched", (long)i, (long)sizeof out);
}

static void move_is_fair(tab_moved m) {
    if (m.answer != 0) is("a refused move gives no numbers", m.taken + m.written, 0);
    output_is_kept_from(m.written);
}

static tab_moved to_text(size_t bytes, size_t room) {
    static uint8_t kept[sizeof groups];
    memcpy(kept, groups, sizeof groups);
    memset(out, FILLED, sizeof out);
    tab_moved m = ref_groups_to_text(groups, bytes, out, room);
    move_is_fair(m);
    is("the groups are untouched", memcmp(kept, groups, sizeof groups), 0);
    return m;
}

/* From `records` on. */
static tab_moved to_groups(size_t bytes, size_t room) {
    static uint8_t kept[sizeof records];
    memcpy(kept, records, sizeof records);
    memset(out, FILLED, sizeof out);
    tab_moved m = ref_text_to_groups(records, bytes, out, room);
    move_is_fair(m);
    is("the text is untouched", memcmp(kept, records, sizeof records), 0);
    return m;
}

/* Fills the words to lend as work space, and holds what a call left there to its answer. */
static void fill_work(void) {
    for (uint32_t i = 0; i < 8000; i++) work[i] = 9;
}

static void work_is_fair(uint32_t answer, size_t cells) {
    int kept = answer == 1 || answer == 2 || answer == 7 || answer == 13 || answer == 14;
    size_t i = 0;
    while (i < 8000 && work[i] == (!kept && i < 2 * cells ? 0 : 9)) i++;
    is("the work space is cleared or kept", (long)i, 8000);
}

static tab_outcome reads_groups(size_t words, size_t work_words, uint32_t holder, size_t bytes) {
    static uint32_t kept[16066];
    memcpy(kept, t, sizeof t);
    fill_work();
    tab_outcome o = ref_read_groups(t, words, work, work_words, holder, groups, bytes);
    work_is_fair(o.answer, kept[0]);
    if (o.answer != 0) is("nothing is taken", o.count, 0);
    if (o.answer != 0) is("the table is untouched", memcmp(kept, t, sizeof t), 0);
    return o;
}

static tab_outcome writes_groups(size_t words, size_t work_words, uint32_t holder, size_t room) {
    static uint32_t kept[16066];
    memcpy(kept, t, sizeof t);
    memset(out, FILLED, sizeof out);
    fill_work();
    tab_outcome o = ref_write_groups(t, words, work, work_words, holder, out, room);
    work_is_fair(o.answer, t[0]);
    output_is_kept_from(o.count);
    if (o.answer != 0) is("nothing is written", o.count, 0);
    is("the table is untouched", memcmp(kept, t, sizeof t), 0);
    return o;
}

/* What a move wrote, as a text without its fill. */
static const char *text_of(tab_moved m) {
    uint32_t bytes = m.written;
    if (m.answer != 0) return "refused";
    is("whole records", bytes % 72 + (bytes == 0), 0);
    while (bytes > 0 && out[bytes - 1] == ' ') bytes--;
    is("one record's fill at most", m.written - bytes < 72, 1);
    out[bytes] = 0;
    return (const char *)out;
}

/* ---- Fixed cases */

typedef struct {
    const char *text; /* of the list; 0 if it is refused, always by 19 */
    uint32_t taken;   /* bytes of the list, or all that are lent */
    uint8_t byte[10];
} fixed;

/* Each byte that a case has no word for is 255, which is no whole number: nothing behind a list may be looked at. */
static const fixed cases[] = {
    {"((3),1,(1,2))", 7, {7, 3, 6, 2, 5, 2, 4}},
    {"()", 1, {1}},
    {"(())", 2, {3, 1}},
    {"(0)", 2, {3, 0}},
    {"(1,2)", 3, {5, 2, 4, 128, 0}},
    {"((),(()),())", 5, {7, 1, 3, 1, 1}},
    {"(77)", 2, {3, 126}},                                    /* 63, the last of one group */
    {"(100)", 3, {3, 128, 1}},                                /* 64 */
    {"(17777)", 3, {3, 254, 127}},                            /* 8,191, the last of two */
    {"(20000)", 4, {3, 128, 128, 1}},                         /* 8,192 */
    {"(3777777)", 4, {3, 254, 255, 127}},                     /* 1,048,575, the last of three */
    {"(4000000)", 5, {3, 128, 128, 128, 1}},                  /* 1,048,576 */
    {"(777777777)", 5, {3, 254, 255, 255, 127}},              /* 2^27 - 1, the last of four */
    {"(1000000000)", 6, {3, 128, 128, 128, 128, 1}},          /* 2^27 */
    {"(37777777777)", 6, {3, 254, 255, 255, 255, 31}},        /* 2^32 - 1 */
    {"(37777777777,0)", 7, {5, 254, 255, 255, 255, 31, 0}},   /* and an atom behind it */
    {0, 6, {3, 128, 128, 128, 128, 32}},                      /* 2^33 */
    {0, 6, {3, 129, 128, 128, 128, 32}},                      /* 2^33 + 1, were it a list */
    {0, 5, {129, 128, 128, 128, 32}},                         /* the same at the top */
    {0, 6, {3, 254, 255, 255, 255, 63}},                      /* 2^34 - 2 */
    {0, 6, {3, 254, 255, 255, 255, 127}},                     /* 2^35 - 2, the most of five groups */
    {0, 7, {3, 128, 128, 128, 128, 128, 1}},                  /* 2^35 */
    {0, 10, {3, 128, 128, 128, 128, 128, 128, 128, 128, 1}},  /* 2^56 */
    {0, 3, {3, 128, 0}},                                      /* 0 in two groups */
    {0, 3, {3, 254, 0}},                                      /* 126 in two */
    {0, 4, {3, 254, 255, 0}},                                 /* 16,382 in three */
    {0, 6, {3, 128, 128, 128, 128, 0}},                       /* 0 in five */
    {0, 7, {3, 254, 255, 255, 255, 159, 0}},                  /* 2^33 - 2 in six */
    {0, 3, {131, 0, 2}},                                      /* the list's own number in two */
    {0, 2, {129, 0}},                                         /* the null list's in two */
    {0, 1, {0}},                                              /* an atom at the top: 0 */
    {0, 1, {2}},
    {0, 1, {126}},
    {0, 2, {128, 1}},                                         /* 64 */
    {0, 5, {254, 255, 255, 255, 31}},                         /* 2^32 - 1 */
    {0, 2, {2, 1}},                                           /* whatever stands behind it */
    {0, 2, {128, 0}},
    {0, 1, {3}},                                              /* what runs out */
    {0, 1, {129}},
    {0, 2, {3, 128}},
    {0, 2, {5, 2}},
    {0, 2, {3, 3}},
    {0, 6, {7, 3, 6, 2, 5, 2}},
    {0, 5, {3, 254, 255, 255, 255}},
    {0, 2, {255, 1}},                                         /* 127 elements, and none is there */
    {0, 5, {255, 255, 255, 255, 31}},                         /* 2^32 - 1 elements, none there */
    {0, 8, {255, 255, 255, 255, 31, 1, 2, 1}},                /* the same with three there */
    {0, 6, {3, 255, 255, 255, 255, 31}},                      /* the same inside */
    {0, 5, {5, 2, 128, 0, 2}},                                /* a fault behind an element */
};

static void load(const uint8_t *byte, size_t bytes) {
    memset(groups, 255, sizeof groups);
    memcpy(groups, byte, bytes);
}

/* A list in groups: to text, into cells, and out of the cells and of the text again. */
static void taken_case(const fixed *c, size_t lent) {
    size_t bytes = c->taken;
    load(c->byte, bytes < sizeof c->byte ? sizeof c->byte : bytes);
    tab_moved m = to_text(lent, MOST);
    is(c->text, m.taken, (long)bytes);
    is_text(c->text, text_of(m), c->text);
    set_up(8);
    tab_outcome o = reads_groups(length(), 16, 5, lent);
    is(c->text, o.answer, 0);
    is(c->text, o.count, (long)bytes);
    is_text(c->text, written(5), c->text);
    o = writes_groups(length(), 17, 5, MOST + 9);
    are_bytes(c->text, out, o.count, c->byte, bytes);
    m = to_groups(record(c->text), MOST + 9);
    are_bytes(c->text, out, m.written, c->byte, bytes);
    is(c->text, m.taken, 72);
}

static void refused_case(const fixed *c) {
    char what[60] = "refused:";
    for (size_t i = 0; i < c->taken; i++) sprintf(what + strlen(what), " %u", c->byte[i]);
    load(c->byte, c->taken);
    set_up(8);
    is(what, to_text(c->taken, MOST).answer, 19);
    is(what, to_text(c->taken, 0).answer, 19); /* 18 is the last */
    is(what, reads_groups(length(), 16, 0, c->taken).answer, 19);
}

static void fixed_cases(void) {
    for (size_t i = 0; i < sizeof cases / sizeof cases[0]; i++) {
        const fixed *c = &cases[i];
        if (c->text) {
            for (size_t lent = c->taken; lent <= sizeof c->byte; lent++) taken_case(c, lent);
            for (size_t lent = 1; lent < c->taken; lent++) is(c->text, to_text(lent, MOST).answer, 19);
            continue;
        }
        refused_case(c);
    }
}

/* ---- Levels */

/* Groups of a list of so many levels, each the only element of the one around it; the innermost has `last`. */
static size_t nested(size_t levels, const uint8_t *last, size_t last_bytes) {
    memset(groups, 255, sizeof groups);
    memset(groups, 3, levels);
    memcpy(groups + levels, last, last_bytes);
    return levels + last_bytes;
}

static void level_case(const char *what, size_t bytes, uint32_t answer) {
    set_up(300);
    is(what, to_text(bytes, MOST).answer, answer);
    is(what, reads_groups(length(), 600, 1, bytes).answer, answer);
    if (answer != 0) is(what, to_text(bytes, 0).answer, answer);
}

static void at_level_201(void) {
    level_case("199 levels and the null list", nested(199, (uint8_t[]){1}, 1), 0);
    level_case("200 levels and an atom", nested(200, (uint8_t[]){2}, 1), 0);
    level_case("the null list at level 201", nested(200, (uint8_t[]){1}, 1), 17);
    level_case("a list at level 201", nested(200, (uint8_t[]){3, 2}, 2), 17);
    level_case("a list at level 201, and no more bytes", nested(201, (uint8_t[]){0}, 0), 17);
    level_case("a list of 64 at level 201", nested(200, (uint8_t[]){129, 1}, 2), 17);
    level_case("a list of 2^32 - 1 at level 201", nested(200, (uint8_t[]){255, 255, 255, 255, 31}, 5), 17);
    level_case("nothing at level 201", nested(200, (uint8_t[]){0}, 0), 19);
    level_case("half a number at level 201", nested(200, (uint8_t[]){129}, 1), 19);
    level_case("a number too long at level 201", nested(200, (uint8_t[]){131, 0}, 2), 19);
    level_case("2^33 + 1 at level 201", nested(200, (uint8_t[]){129, 128, 128, 128, 32}, 5), 19);
    level_case("an atom too long at level 201", nested(200, (uint8_t[]){130, 0}, 2), 19);
}

/* What comes first along the bytes wins, and no number is held against the bytes that are left. */
static void first_fault_wins(void) {
    size_t bytes = nested(200, (uint8_t[]){1, 128, 0}, 3);
    level_case("level 201, then a number too long", bytes, 17);
    groups[0] = 5;
    memmove(groups + 3, groups + 1, bytes);
    memcpy(groups + 1, (uint8_t[]){128, 0}, 2);
    level_case("a number too long, then level 201", bytes + 2, 19);
    memcpy(groups + 1, (uint8_t[]){2, 2}, 2);
    groups[0] = 7;
    level_case("two atoms, then level 201", bytes + 2, 17);
    memmove(groups + 5, groups + 1, bytes);
    memcpy(groups, (uint8_t[]){255, 255, 255, 255, 31}, 5);
    memset(groups + 5, 3, 198);
    memcpy(groups + 203, (uint8_t[]){1, 1}, 2);
    level_case("2^32 - 1 elements said, the first 199 deep, then none", 204, 19);
    memcpy(groups + 203, (uint8_t[]){3, 1}, 2);
    level_case("2^32 - 1 elements said, then level 201", 205, 17);
    for (size_t i = 0; i < 1000; i += 5) memcpy(groups + i, (uint8_t[]){255, 255, 255, 255, 31}, 5);
    level_case("200 lists that say so, and nothing", 1000, 19);
    memcpy(groups + 1000, (uint8_t[]){1}, 1);
    level_case("200 lists that say so, then level 201", 1001, 17);
}

/* The null list in 200 levels is 200 bytes, and in 400 brackets; one level more is 17 at its own number. */
static void deep_writes(void) {
    set_up(400);
    is("200 levels", reads(brackets(200), 0), 0);
    is("200 levels in 199 bytes", writes_groups(length(), 800, 0, 199).answer, 18);
    tab_outcome o = writes_groups(length(), 800, 0, 200);
    nested(199, (uint8_t[]){1}, 1);
    are_bytes("200 levels", out, o.count, groups, 200);
    is("201 levels", operate(TAB_PFL, 1, 0, 0), 0);
    is("201 levels in 199 bytes", writes_groups(length(), 800, 1, 199).answer, 18);
    is("201 levels in 200 bytes", writes_groups(length(), 800, 1, 200).answer, 17);
    is("201 levels in 201 bytes", writes_groups(length(), 800, 1, 201).answer, 17);
    is("201 levels in all bytes", writes_groups(length(), 800, 1, MOST + 9).answer, 17);
    is("201 levels in no bytes", writes_groups(length(), 800, 1, 0).answer, 18);
    is("200 levels of text", to_groups(record(brackets(200)), MOST).written, 200);
    is("201 levels of text", to_groups(record(brackets(201)), 0).answer, 17);
}

/* ---- Sizes, room */

static void input_sizes(void) {
    set_up(8);
    load((uint8_t[]){1, 1}, 2);
    is("no bytes", to_text(0, 0).answer, 14);
    is("no bytes", reads_groups(length(), 16, 0, 0).answer, 14);
    is("one byte", to_text(1, 72).taken, 1);
    is("65,520 bytes", to_text(MOST, 72).taken, 1);
    is("65,520 bytes", reads_groups(length(), 16, 0, MOST).count, 1);
    is("65,521 bytes", to_text(MOST + 1, 72).answer, 13);
    is("65,521 bytes", reads_groups(length(), 16, 0, MOST + 1).answer, 13);
    is("71 bytes are no wrong size", to_text(71, 72).taken, 1);
    is("as many bytes as there are", to_text((size_t)-1, 72).answer, 13);
    is("the text's 71 bytes", to_groups(71, MOST).answer, 13);
    record("()");
    is("the text's 65,592 bytes", to_groups(65592, MOST).answer, 13);
    is("no text", to_groups(0, 0).answer, 14);
    memset(records, ' ', sizeof records);
    is("a blank text", to_groups(72, 0).answer, 14);
    is("as many blanks as there can be", to_groups(MOST, MOST).answer, 14);
    records[MOST - 1] = '(';
    is("blanks and a bracket", to_groups(MOST, MOST).answer, 15);
    memcpy(records, "()", 2);
    is("a list, and behind its record blanks and a bracket", to_groups(MOST, MOST).taken, 72);
}

/* 65,517 atoms of one byte are 65,520 bytes, the longest list there is: too long for text and for a pool. */
static void longest_groups(void) {
    memset(groups, 0, sizeof groups);
    memcpy(groups, (uint8_t[]){219, 255, 7}, 3);
    is("the longest list to text", to_text(MOST, MOST).answer, 18);
    set_up(4000);
    is("the longest list into cells", reads_groups(length(), 8000, 0, MOST).answer, 12);
    is("the longest list, a byte short", to_text(MOST - 1, MOST).answer, 19);
    groups[0]++, groups[0]++;
    is("one element more", to_text(MOST, MOST).answer, 19);
}

/* n elements of one digit: 2n + 1 characters, and n bytes behind the list's own number. */
static size_t flat_text(size_t elements) {
    memset(records, ' ', sizeof records);
    for (size_t i = 0; i < elements; i++) memcpy(records + 2 * i, i == 0 ? "(0" : ",0", 2);
    memcpy(records + 2 * elements, elements == 0 ? "()" : ")", elements == 0 ? 2 : 1);
    return (2 * elements + 2 + 71) / 72 * 72;
}

static void list_numbers(void) {
    static const struct {
        size_t elements, bytes;
        uint8_t number[3];
    } edges[] = {{0, 1, {1}},           {63, 1, {127}},          {64, 2, {129, 1}},          {8191, 2, {255, 127}},
                 {8192, 3, {129, 128, 1}}, {32758, 3, {237, 255, 3}}};
    for (size_t i = 0; i < sizeof edges / sizeof edges[0]; i++) {
        size_t bytes = flat_text(edges[i].elements);
        tab_moved m = to_groups(bytes, MOST);
        is("bytes of a list's number and its elements", m.written, (long)(edges[i].bytes + edges[i].elements));
        are_bytes("a list's number", out, edges[i].bytes, edges[i].number, edges[i].bytes);
        memcpy(groups, out, m.written);
        m = to_text(m.written, MOST);
        are_bytes("back to text", out, m.written, records, bytes);
    }
}

/* A list of exactly 65,520 characters fits, whatever the room beyond; of one more nothing does. */
static void longest_text(void) {
    flat_text(32759);
    records[65518] = '0', records[65519] = ')';
    records[65517] = '1'; /* the last atom is 10, of two digits: 65,520 characters */
    tab_moved m = to_groups(MOST, MOST);
    is("65,520 characters", m.taken, MOST);
    memcpy(groups, out, m.written);
    size_t bytes = m.written;
    is("65,520 characters back", to_text(bytes, MOST).written, MOST);
    is("65,520 characters, more room", to_text(bytes, MOST + 72).written, MOST);
    is("65,520 characters, a byte less room", to_text(bytes, MOST - 1).answer, 18);
    memcpy(groups + bytes - 1, (uint8_t[]){128, 1}, 2); /* 64 in the place of 8: a digit more */
    is("65,521 characters", to_text(bytes + 1, MOST + 72).answer, 18);
}

/* In every room that is too small, 18 and nothing else; in every other, the whole. */
static void every_room(const char *text) {
    set_up(40);
    is(text, reads(text, 3), 0);
    uint32_t bytes = to_groups(record(text), MOST).written;
    memcpy(groups, out, bytes);
    for (uint32_t room = 0; room < bytes + 3; room++) {
        uint32_t answer = room < bytes ? 18 : 0;
        is("writing in a room", writes_groups(length(), 80, 3, room).answer, answer);
        if (answer == 0) are_bytes(text, out, bytes, groups, bytes);
        is("moving to groups in a room", to_groups(record(text), room).answer, answer);
    }
    uint32_t characters = (uint32_t)(strlen(text) + 71) / 72 * 72;
    for (uint32_t room = 0; room < characters + 80; room++)
        is("moving to text in a room", to_text(bytes, room).answer, room < characters ? 18 : 0);
}

static void rooms(void) {
    every_room("()");
    every_room("((3),1,(1,2))");
    every_room("(200)");
    every_room("(37777777777,(10000000000,20000),77,100)");
    every_room("(1,2,3,4,5,6,7,1,2,3,4,5,6,7,1,2,3,4,5,6,7,1,2,3,4,5,6,7,1,2,3,4,5,6)");
    every_room("(1,2,3,4,5,6,7,1,2,3,4,5,6,7,1,2,3,4,5,6,7,1,2,3,4,5,6,7,1,2,3,4,5,6,7)");
}

/* ---- Text to groups, and the order of refusals */

static void texts_to_groups(void) {
    static const struct {
        const char *text;
        uint32_t answer;
    } refused[] = {{"(1", 15},  {"(1,)", 15},          {"(8)", 15},           {" (1)", 15}, {"(1) 2", 15},
                   {"1", 15},   {"(40000000000)", 16}, {"(000000000000)", 16}, {"x", 15},    {"(37777777778)", 15}};
    for (size_t i = 0; i < sizeof refused / sizeof refused[0]; i++) {
        is(refused[i].text, to_groups(record(refused[i].text), MOST).answer, refused[i].answer);
        is(refused[i].text, to_groups(record(refused[i].text), 0).answer, refused[i].answer); /* 18 is the last */
    }
    tab_moved m = to_groups(record("(012,00000000000,(0001))"), MOST);
    are_bytes("leading zeros", out, m.written, (uint8_t[]){7, 20, 0, 3, 2}, 5);
    load(out, m.written);
    is_text("leading zeros are gone", text_of(to_text(5, 72)), "(12,0,(1))");
    record("(1)");
    memset(records + 72, '!', 72);
    m = to_groups(144, 2);
    is("a record behind the list is not taken", m.taken, 72);
    is("a record behind the list", m.written, 2);
}

/* Every fault at once; then one after the other is mended, and the next must be told. */
static void order_of_reading(void) {
    set_up(3);
    is("a list", reads("(1)", 0), 0);
    COUNT(t, 1) = 7;
    load((uint8_t[]){5, 2}, 2);
    is("1 first", reads_groups(77, 5, 64, MOST + 1).answer, 1);
    is("no table", reads_groups(0, 0, 64, 0).answer, 1);
    is("then 2", reads_groups(78, 5, 64, MOST + 1).answer, 2);
    is("then 7", reads_groups(78, 6, 64, MOST + 1).answer, 7);
    is("7 before 14", reads_groups(78, 6, 4294967295, 0).answer, 7);
    is("then 13", reads_groups(78, 6, 0, MOST + 1).answer, 13);
    is("then 14", reads_groups(78, 6, 0, 0).answer, 14);
    is("then 5", reads_groups(78, 6, 0, 2).answer, 5);
    COUNT(t, 1) = 1;
    is("then 10", reads_groups(78, 6, 0, 2).answer, 10);
    is("then 19", reads_groups(78, 6, 1, 2).answer, 19);
    load((uint8_t[]){7, 2, 4, 6}, 4);
    is("then 12", reads_groups(78, 6, 1, 4).answer, 12);
    nested(201, (uint8_t[]){0}, 0);
    is("17 before 12", reads_groups(78, 6, 1, 201).answer, 17);
    load((uint8_t[]){5, 2, 4}, 3);
    is("then done", reads_groups(78, 6, 1, 3).count, 3);
    is_text("the list", written(1), "(1,2)");
    is_text("the list before", written(0), "(1)");
}

static void order_of_writing(void) {
    set_up(3);
    is("a list", reads("(1)", 0), 0);
    COUNT(t, 1) = 7;
    is("1 first", writes_groups(77, 5, 64, 0).answer, 1);
    is("then 2", writes_groups(78, 5, 64, 0).answer, 2);
    is("then 7", writes_groups(78, 6, 64, 0).answer, 7);
    is("then 5", writes_groups(78, 6, 0, 0).answer, 5);
    COUNT(t, 1) = 1;
    is("then 18", writes_groups(78, 6, 0, 1).answer, 18);
    is("then done", writes_groups(78, 6, 0, 2).count, 2);
    is("a null holder", writes_groups(78, 6, 9, 1).count, 1);
    are_bytes("a null holder", out, 1, (uint8_t[]){1}, 1);
}

/* ---- A list's groups by a second definition: its text is cut into elements, and they are counted */

static size_t number_by_bounds(uint64_t number, uint8_t *to) {
    static const uint64_t bound[] = {128, 16384, 2097152, 268435456, 8589934592};
    size_t bytes = 1;
    while (number >= bound[bytes - 1]) bytes++;
    for (size_t i = 0; i < bytes; i++) to[i] = (uint8_t)((number >> 7 * i & 127) | (i + 1 < bytes ? 128 : 0));
    return bytes;
}

/* The groups of the element that the text at s starts with; gives their number. */
static size_t groups_by_cutting(const char *s, uint8_t *to) {
    uint64_t elements = 0;
    size_t bytes;
    if (*s != '(') return number_by_bounds(2 * (uint64_t)octal(s), to);
    for (const char *e = s + 1; *e != ')'; e += *e == ',') e += element_end(e), elements++;
    bytes = number_by_bounds(2 * elements + 1, to);
    for (const char *e = s + 1; *e != ')'; e += *e == ',') {
        bytes += groups_by_cutting(e, to + bytes);
        e += element_end(e);
    }
    return bytes;
}

static char made[20000];

/* A random list of up to `budget` elements from `at` in `made`, atoms often near the edges of groups; gives its end. */
static size_t random_list(size_t at, int *budget, int level) {
    static const uint32_t edge[] = {0, 63, 64, 8191, 8192, 1048575, 1048576, 134217727, 134217728, 4294967295};
    made[at++] = '(';
    for (uint32_t left = below(level == 1 ? 90 : 6); left > 0 && *budget > 0; left--) {
        if (made[at - 1] != '(') made[at++] = ',';
        --*budget;
        if (chance(30) && level < 200) {
            at = random_list(at, budget, level + 1);
        } else {
            uint32_t atom = chance(30) ? edge[below(10)] : chance(50) ? below(64) : any_word();
            at += (size_t)sprintf(made + at, "%s%o", atom < 8 && chance(30) ? "00" : "", atom);
        }
    }
    made[at++] = ')';
    made[at] = 0;
    return at;
}

/* Takes the zeros off that stand in front of another digit of their atom. */
static void without_leading_zeros(char *s) {
    char *to = s;
    for (char before = '('; *s; s++) {
        if (*s == '0' && before != 'd' && s[1] >= '0' && s[1] <= '7') continue;
        before = *s >= '0' && *s <= '7' ? 'd' : *s;
        *to++ = *s;
    }
    *to = 0;
}

/* The list in `made` goes to groups and back: what the second definition says, and the text without leading zeros. */
static size_t there_and_back(uint8_t *should) {
    size_t bytes = groups_by_cutting(made, should), lent = record(made);
    tab_moved m = to_groups(lent, MOST);
    is("a random list's text is taken", m.taken, (long)lent);
    are_bytes("a random list to groups", out, m.written, should, bytes);
    without_leading_zeros(made);
    load(should, bytes);
    m = to_text(bytes + below(3), MOST);
    is("a random list's groups are taken", m.taken, (long)bytes);
    is_text("a random list to text", text_of(m), made);
    return bytes;
}

/* Both forms are read into the same table, which may have room or not: same answer, same words. */
static void same_cells(const uint8_t *should, size_t bytes) {
    static uint32_t before[16066], from_text[16066];
    uint32_t n = from_to(1, 200), h = below(64);
    memset(t, 0, sizeof t);
    make_sound(t, n);
    memcpy(before, t, sizeof t);
    uint32_t answer = reads(made, h);
    memcpy(from_text, t, sizeof t);
    memcpy(t, before, sizeof t);
    is("both forms are read or refused", reads_groups(length(), 2 * n, h, bytes).answer, answer);
    is("both forms make the same cells", memcmp(from_text, t, sizeof t), 0);
    if (answer != 0) return;
    tab_outcome o = writes_groups(length(), 2 * n, h, MOST);
    are_bytes("what was read is written back", out, o.count, should, bytes);
}

static void random_lists(void) {
    static uint8_t should[20000];
    for (uint64_t story = 0; story < 2000; story++) {
        int budget = story % 20 == 0 ? 700 : 60;
        start_random(3, story);
        random_list(0, &budget, 1);
        size_t bytes = there_and_back(should);
        same_cells(should, bytes);
    }
}

/* ---- What is refused by a second definition: all lists of one to three bytes are listed, and there are no others */

static uint8_t listed[1 << 21]; /* a bit for each string of three bytes */
static uint8_t listed_2[65536];

static void list_3(uint32_t a, uint32_t b, uint32_t c) {
    uint32_t key = a | b << 8 | c << 16;
    listed[key / 8] |= (uint8_t)(1 << key % 8);
}

/* An element of one byte by its number: an atom up to 63, or the null list. */
static uint32_t small_element(uint32_t i) { return i < 64 ? 2 * i : 1; }

static void list_them(void) {
    uint8_t atom[5];
    for (uint32_t i = 0; i <= 64; i++) {
        listed_2[3 | small_element(i) << 8] = 1;
        list_3(3, 3, small_element(i));
        for (uint32_t k = 0; k <= 64; k++) list_3(5, small_element(i), small_element(k));
    }
    for (uint64_t v = 64; v < 8192; v++) {
        is("an atom of two bytes", (long)number_by_bounds(2 * v, atom), 2);
        list_3(3, atom[0], atom[1]);
    }
}

static void short_case(uint32_t a, uint32_t b, uint32_t c, size_t bytes) {
    uint32_t key = a | b << 8 | c << 16, taken = 0;
    memcpy(groups, (uint8_t[]){(uint8_t)a, (uint8_t)b, (uint8_t)c}, 3);
    if (a == 1) taken = 1;
    else if (bytes >= 2 && listed_2[a | b << 8]) taken = 2;
    else if (bytes == 3 && listed[key / 8] >> key % 8 & 1) taken = 3;
    tab_moved m = ref_groups_to_text(groups, bytes, out, 72);
    is("bytes of a short list", m.taken, taken);
    is("a short list is taken or refused by 19", m.answer, taken > 0 ? 0 : 19);
}

static void short_groups(void) {
    static const uint8_t first[] = {0, 1, 2, 3, 4, 5, 6, 7, 9, 63, 126, 127, 128, 129, 130, 131, 133, 192, 254, 255};
    list_them();
    for (uint32_t a = 0; a < 256; a++) {
        short_case(a, 0, 0, 1);
        for (uint32_t b = 0; b < 256; b++) short_case(a, b, 0, 2);
    }
    for (size_t i = 0; i < sizeof first; i++)
        for (size_t k = 0; k < sizeof first; k++)
            for (uint32_t c = 0; c < 256; c++) short_case(first[i], first[k], c, 3);
}

void groups_cases(void) {
    fixed_cases();
    at_level_201();
    first_fault_wins();
    deep_writes();
    input_sizes();
    longest_groups();
    list_numbers();
    longest_text();
    rooms();
    texts_to_groups();
    order_of_reading();
    order_of_writing();
    random_lists();
    short_groups();
}
