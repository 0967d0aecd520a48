/*
 * The differential test: the library's calls and the reference's on the same random input, every lent word compared.
 *
 *   diff                  the whole test with seed 1
 *   diff SEED             with another seed
 *   diff SEED CASE        one case alone, each call printed
 *   diff SEED FROM TO     the cases FROM to TO - 1
 *
 * The first cases go through all small words of a pool of two cells, the next through all numbers of records with
 * blanks, the next through all groups of two bytes with something behind them. Each other case is a story: a table, and
 * some calls on it one after the other, each disturbed now and then.
 * Status 0: no difference, and every answer came up.
 */
#include <stdio.h>
#include <stdlib.h>
#include <string.h>
#include <unistd.h>

#include "calls.h"
#include "groups.h"
#include "random.h"
#include "reference.h"
#include "tables.h"
#include "texts.h"

enum { SWEEP_TABLES = 589824, SWEEP_STEP = 256, SWEEP_CASES = SWEEP_TABLES / SWEEP_STEP };
enum { MOST_RECORDS = 911 }; /* one more than a text may have */
enum { FIRST_BYTES = 256 };  /* a case for each first byte of groups */
enum { FIRST_GROUPS = SWEEP_CASES + MOST_RECORDS, FIRST_STORY = FIRST_GROUPS + FIRST_BYTES, STORIES = 90000 };
enum { MOST_DIFFERENT = 5, SECONDS = 60 }; /* the test ends after so many differences, or so long in one case */

/* ---- A story: n cells, the table as it is now (sound, unless it began as noise), and a few holders that are used */

static uint32_t n, now[16066], used[8], used_count;
static int large, long_text;

static size_t table_length(void) { return 66 + 4 * (size_t)n; }

/* Puts the story's table in place to be lent, damaged now and then, and gives how many words to lend. */
static size_t place_table(void) {
    size_t length = table_length();
    uint32_t *t = own(&table);
    memcpy(t, now, 4 * length);
    if (chance(10)) {
        damage(t, n);
        if (chance(25)) damage(t, n);
    }
    if (!chance(4)) return length;
    if (chance(4)) { /* N out of range by one, all else right */
        t[0] = chance(60) ? 0 : 4001;
        FREE(t) = t[0] > 0;
        memset(t + 2, 0, 4 * (64 + 4 * (size_t)t[0]));
        for (uint32_t c = 1; c < t[0]; c++) SUCCESSOR(t, c) = c + 1;
        return 66 + 4 * (size_t)t[0];
    }
    fill_random(t + length, 4 * 8);
    switch (below(8)) {
    case 0: return 0;
    case 1: return length - 1;
    case 2: return length + 1;
    case 3: return length + 4;
    case 4: return length - 4;
    case 5: return below((uint32_t)length);
    default: {
        uint32_t wrong[] = {0, 4001, n + 1, n - 1, n + 0x40000000, n | 0x80000000, 0xFFFFFFFF, any_word()};
        t[0] = wrong[below(8)];
        return length;
    }
    }
}

/* The story goes on with the table that the reference left, if it was found sound. */
static void take_over(tab_outcome o, int run) {
    if (o.answer == 0 || (run && o.answer > 5)) memcpy(now, table.own, 4 * table_length());
}

static size_t work_length(void) {
    if (own(&table)[0] == 4001) return 8002;
    if (chance(3)) return below(2 * n);
    if (chance(1)) return 2 * n - 1;
    return 2 * n + (chance(30) ? 1 + below(5) : 0);
}

static uint32_t used_holder(void) { return chance(3) ? below(64) : used[below(used_count)]; }

static uint32_t any_holder(void) { return chance(3) ? (chance(50) ? 64 : any_word()) : used_holder(); }

static void choose_operation(uint32_t *w) {
    static const uint32_t codes[] = {1, 1, 1, 2, 2, 2, 3, 3, 4, 4, 5, 5, 5, 5, 6, 7, 7, 8, 8, 9, 9, 10, 11};
    w[0] = codes[below(sizeof codes / sizeof codes[0])];
    w[1] = any_holder();
    w[2] = any_holder();
    w[3] = any_word();
    if (chance(1)) w[0] = chance(50) ? 12 * below(2) : any_word();
    /* words that are not used hold anything */
    if ((w[0] == 1 || w[0] == 6 || w[0] == 7 || w[0] > 9) && chance(50)) w[2] = any_word();
}

/* Makes a script of up to `most` operations; most of them can be done on the story's table. Gives how many. */
static uint32_t make_script(uint32_t most) {
    uint32_t *w = own(&script), result[2], k = 0;
    ref_open(now);
    while (k < most) {
        uint32_t tries = 0, answer;
        do {
            choose_operation(w + 4 * k);
            answer = ref_step(w + 4 * k, result);
        } while (answer != 0 && !chance(5) && tries++ < 10);
        k++;
        if (answer == 0) continue;
        for (uint32_t more = below(3); more > 0 && k < most; more--) choose_operation(w + 4 * k++);
        break;
    }
    return k;
}

static void story_run(void) {
    uint32_t operations = make_script(large && chance(20) ? 4096 : below(chance(80) ? 12 : 60));
    size_t script_words = 4 * (size_t)operations, results_words;
    if (chance(3)) {
        fill_random(script.own + 4 * script_words, 16);
        script_words += 1 + below(3);
    }
    if (chance(large ? 10 : 1) && (large || chance(20))) { /* as many operations as a script can have, or a few more */
        fill_random(script.own, 4 * 16400);
        script_words = 4 * 4096 + below(9);
        for (uint32_t i = 0; i < script_words; i += 4) own(&script)[i] = TAB_FIRST + below(2);
    }
    results_words = 2 * (script_words / 4);
    if (results_words > 0 && chance(4)) results_words = chance(50) ? results_words - 1 : below((uint32_t)results_words);
    else if (chance(20)) results_words += 1 + below(4);
    size_t table_words = place_table(), work_words = work_length();
    take_over(call_run(table_words, work_words, script_words, results_words), 1);
}

static uint32_t holder_to_read_into(void) {
    if (chance(3)) return chance(50) ? 64 : any_word() | 64;
    uint32_t h = used_holder();
    for (int tries = 0; tries < 8 && HOLDS(now, h) != 0 && chance(92); tries++) h = below(64);
    return h;
}

/* A table that just has room for so many cells, or just has not. */
static void fresh_table(uint32_t extent) {
    uint32_t cells = extent + below(3);
    n = cells < 2 ? 1 : cells > 4001 ? 4000 : cells - 1;
    ref_set_up(now, table_length(), n);
}

/* Reads what is in `in` into the story's table, or into one of about the list's own size. */
static void read_into_table(tab_outcome (*call)(size_t, size_t, uint32_t, size_t), uint32_t extent, size_t bytes) {
    if (chance(15)) fresh_table(extent);
    size_t table_words = place_table(), work_words = work_length();
    uint32_t h = holder_to_read_into();
    take_over(call(table_words, work_words, h, bytes), 0);
}

static void story_read(void) {
    static text x;
    make_text(&x, large && chance(60));
    memcpy(in.own, x.byte, x.bytes);
    read_into_table(call_read, x.extent, x.bytes);
}

static void story_read_groups(void) {
    static groups g;
    make_groups(&g, large && chance(60));
    memcpy(in.own, g.byte, g.bytes);
    read_into_table(call_read_groups, g.extent, g.bytes);
}

/* Most often one whose list is not null, if there is one. */
static uint32_t holder_to_write(void) {
    uint32_t h = used_holder();
    if (chance(90))
        for (int tries = 0; tries < 64 && HOLDS(now, h) == 0; tries++) h = (h + 1) % 64;
    return h;
}

static void story_write(void) {
    static uint8_t scratch[65520];
    static uint32_t scratch_work[8000];
    uint32_t h = holder_to_write();
    size_t room = long_text || chance(3) ? 65520 : 720;
    tab_outcome o = ref_write(now, table_length(), scratch_work, sizeof scratch_work / 4, h, scratch, room);
    if (o.answer == 0) {
        uint32_t full = o.count;
        uint32_t rooms[] = {full,     full,      full,      full + 1,    full + 71, full + 72,
                            full - 1, full - 72, full - 71, below(full), 0};
        room = rooms[below(sizeof rooms / sizeof rooms[0])];
    } else {
        static const uint32_t rooms[] = {71, 72, 73, 144, 215, 216, 216, 216, 217, 287, 288, 289, 360, 720, 65519};
        room = rooms[below(chance(97) ? 14 : 15)];
    }
    if (long_text ? chance(60) : chance(1) && chance(20)) room = from_to(65515, 65600);
    if (chance(3)) h = chance(50) ? 64 : any_word() | 64;
    size_t table_words = place_table(), work_words = work_length();
    take_over(call_write(table_words, work_words, h, room), 0);
}

/* A room that is just enough, just not, or anything less. */
static size_t room_near(uint32_t full) {
    uint32_t less = below(full);
    uint32_t rooms[] = {full, full, full, full + 1, full + 71, full - 1, full - 1, less, less, 0};
    return rooms[below(sizeof rooms / sizeof rooms[0])];
}

/* The holder's list has 201 levels: a room where 17 and 18 meet at one number, or one beside it. */
static size_t room_at_level_201(uint32_t h) {
    static uint8_t scratch[65520];
    static uint32_t scratch_work[8000];
    size_t room = 0, step = 32768; /* the least room that gives 17 */
    for (; step > 0; step /= 2)
        if (ref_write_groups(now, table_length(), scratch_work, 8000, h, scratch, room + step - 1).answer == 18) room += step;
    return room + below(3) - (room > 0);
}

static void story_write_groups(void) {
    static uint8_t scratch[65520];
    static uint32_t scratch_work[8000];
    uint32_t h = holder_to_write();
    tab_outcome o = ref_write_groups(now, table_length(), scratch_work, sizeof scratch_work / 4, h, scratch, 65520);
    size_t room = o.answer == 0 ? room_near(o.count) : o.answer == 17 ? room_at_level_201(h) : below(2000);
    if (chance(2)) room = from_to(65519, 65600);
    if (chance(3)) h = chance(50) ? 64 : any_word() | 64;
    size_t table_words = place_table(), work_words = work_length();
    take_over(call_write_groups(table_words, work_words, h, room), 0);
}

static void story_text_to_groups(void) {
    static uint8_t scratch[65520];
    static text x;
    make_text(&x, chance(1));
    memcpy(in.own, x.byte, x.bytes);
    tab_moved m = ref_text_to_groups(in.own, x.bytes, scratch, 65520);
    call_text_to_groups(x.bytes, m.answer == 0 ? room_near(m.written) : below(80));
}

static void story_groups_to_text(void) {
    static uint8_t scratch[65520];
    static groups g;
    make_groups(&g, chance(1));
    memcpy(in.own, g.byte, g.bytes);
    tab_moved m = ref_groups_to_text(in.own, g.bytes, scratch, 65520);
    size_t room = m.answer == 0 ? room_near(m.written) : below(80);
    if (chance(1)) room = from_to(65515, 65600);
    call_groups_to_text(g.bytes, room);
}

/* ---- A list in both forms: there and back, and into cells */

static text list_text;
static groups list_groups;

static void take_out(uint8_t *to, size_t bytes) { memcpy(to, out.own, bytes); }

/* Makes a list in both forms, none of them at fault; 0 if the list that came up is refused. */
static int list_in_both_forms(void) {
    make_text(&list_text, chance(2));
    memcpy(in.own, list_text.byte, list_text.bytes);
    tab_moved m = call_text_to_groups(list_text.bytes, 65520);
    if (m.answer != 0) return 0;
    take_out(list_groups.byte, list_groups.bytes = m.written);
    memcpy(in.own, list_groups.byte, list_groups.bytes);
    m = call_groups_to_text(list_groups.bytes, 65520);
    must_hold(m.answer == 0 && m.taken == list_groups.bytes, "the groups of a text are taken whole");
    take_out(list_text.byte, list_text.bytes = m.written);
    memcpy(in.own, list_text.byte, list_text.bytes);
    m = call_text_to_groups(list_text.bytes, 65520);
    must_hold(m.answer == 0 && m.taken == list_text.bytes && m.written == list_groups.bytes &&
                  memcmp(out.own, list_groups.byte, m.written) == 0,
              "groups come back from text byte for byte");
    return 1;
}

/* Reads the list in both forms into the same table: the same answer and the same words, whatever the table is like. */
static void story_both_forms(void) {
    static uint32_t before[16070], after[16070];
    if (!list_in_both_forms()) return;
    if (chance(30)) fresh_table(list_text.extent);
    size_t table_words = place_table(), work_words = work_length();
    uint32_t h = holder_to_read_into();
    memcpy(before, table.own, 4 * table_words);
    memcpy(in.own, list_text.byte, list_text.bytes);
    tab_outcome from_text = call_read(table_words, work_words, h, list_text.bytes);
    memcpy(after, table.own, 4 * table_words);
    memcpy(table.own, before, 4 * table_words);
    memcpy(in.own, list_groups.byte, list_groups.bytes);
    tab_outcome from_groups = call_read_groups(table_words, work_words, h, list_groups.bytes);
    must_hold(from_text.answer == from_groups.answer && memcmp(after, table.own, 4 * table_words) == 0,
              "both forms make the same cells");
    take_over(from_groups, 0);
    if (from_groups.answer != 0) return;
    tab_outcome o = call_write_groups(table_words, work_words, h, 65520);
    must_hold(o.count == list_groups.bytes && memcmp(out.own, list_groups.byte, o.count) == 0,
              "what is read from groups is written back");
    o = call_write(table_words, work_words, h, 65520);
    must_hold(o.count == list_text.bytes && memcmp(out.own, list_text.byte, o.count) == 0,
              "what is read from groups is written as its text");
}

static void story_check(void) {
    static text x;
    make_text(&x, chance(1));
    memcpy(in.own, x.byte, x.bytes);
    call_check(x.bytes);
    call_rest(x.bytes);
}

static void story_set_up(void) {
    static const uint32_t edges[] = {0, 1, 4000, 4001, 0x40000000, 0xFFFFFFFF};
    uint32_t cells = chance(2) ? edges[below(6)] : chance(5) ? any_word() : from_to(1, 50);
    size_t length = cells <= 4001 ? 66 + 4 * (size_t)cells : 66 + 4 * (size_t)(cells % 64);
    if (chance(20)) length = chance(30) ? 0 : chance(50) ? length - 1 + below(3) : below(300);
    call_set_up(length, cells);
}

static void begin_story(void) {
    uint32_t size = below(1000), kind = below(100);
    n = size < 450 ? from_to(1, 8) : size < 900 ? from_to(9, 40) : size < 995 ? from_to(41, 300) : from_to(3900, 4000);
    if (size == 999) n = 4000;
    if (kind >= 96) n = from_to(206, 250);
    long_text = kind == 95 && chance(30);
    if (long_text) n = from_to(300, 400);
    large = n > 400;
    used_count = from_to(2, 8);
    for (uint32_t i = 0; i < used_count; i++) used[i] = chance(10) ? 63 * below(2) : below(64);
    if (kind < 35) ref_set_up(now, table_length(), n);
    else if (kind < 85) make_sound(now, n);
    else if (kind < 91) make_ladder(now, n);
    else if (long_text) make_long(now, n, chance(50) ? from_to(65515, 65525) : from_to(65000, 66000));
    else if (kind < 96) make_noise(now, n);
    else make_deep(now, n, from_to(199, 202));
    /* the lists that are there are worth using */
    for (uint32_t h = 0; h < 64; h++)
        if (HOLDS(now, h) != 0 && chance(60)) used[below(used_count)] = h;
    if (kind >= 91 && kind < 96 && !long_text) { /* noise: one call tells whether it is sound */
        memcpy(table.own, now, 4 * table_length());
        if (call_run(table_length(), 2 * n, 0, 0).answer != TAB_DONE) ref_set_up(now, table_length(), n);
    }
}

static void story(void) {
    unsigned long long before = different;
    begin_story();
    for (uint32_t left = large ? 4 : from_to(4, 20); left > 0 && different == before; left--) {
        uint32_t what = below(100);
        if (what < 42) story_run();
        else if (what < 57) story_read();
        else if (what < 67) story_write();
        else if (what < 73) story_check();
        else if (what < 76) story_set_up();
        else if (what < 84) story_read_groups();
        else if (what < 90) story_write_groups();
        else if (what < 93) story_text_to_groups();
        else if (what < 98) story_groups_to_text();
        else story_both_forms();
    }
}

/* ---- The sweep: free head, holder 0 and all words of two cells, each 0 to 3, types 0 to 2 */

static void sweep(uint32_t from) {
    for (uint32_t number = from; number < from + SWEEP_STEP && different == 0; number++) {
        uint32_t rest = number, *t = own(&table);
        memset(t, 0, 4 * 74);
        t[0] = 2;
        t[1] = rest % 4, rest /= 4;
        t[2] = rest % 4, rest /= 4;
        for (uint32_t i = 66; i < 74; i++) {
            uint32_t values = i % 4 == 66 % 4 ? 3 : 4;
            t[i] = rest % values, rest /= values;
        }
        call_run(74, 4, 0, 0);
    }
}

/* ---- Blank records: so many of them in all ways, checked, and read on a small table */

static void blank_records(uint32_t records) {
    static text x;
    n = 12;
    for (int kind = 0; kind < PADDED && different == 0; kind++) {
        make_padded(&x, records, (enum padded)kind);
        memcpy(in.own, x.byte, x.bytes);
        call_check(x.bytes);
        call_rest(x.bytes);
        ref_set_up(own(&table), table_length(), n);
        call_read(table_length(), 2 * n, below(64), x.bytes);
    }
}

/* ---- Short groups: this first byte, then each other, then nothing or something; as text and into a small table */

static void short_groups(uint32_t first) {
    static const uint8_t then[] = {0, 1, 2, 3, 127, 128, 129, 255};
    n = 4;
    for (uint32_t second = 0; second < 256 && different == 0; second++) {
        uint32_t bytes = chance(50) ? 2 : from_to(3, 6);
        in.own[0] = (uint8_t)first, in.own[1] = (uint8_t)second;
        for (uint32_t i = 2; i < bytes; i++) in.own[i] = then[below(sizeof then)];
        call_groups_to_text(bytes, 72 * below(3));
        ref_set_up(own(&table), table_length(), n);
        call_read_groups(table_length(), 2 * n, below(64), bytes);
    }
}

/* ---- The whole */

static void run_case(unsigned long long number) {
    this_case = number;
    calls_in_case = 0;
    alarm(SECONDS);
    start_random(seed, number);
    if (number < SWEEP_CASES) sweep((uint32_t)number * SWEEP_STEP);
    else if (number < FIRST_GROUPS) blank_records((uint32_t)number - SWEEP_CASES + 1);
    else if (number < FIRST_STORY) short_groups((uint32_t)number - FIRST_GROUPS);
    else story();
}

int main(int argc, char **argv) {
    unsigned long long from = 0, to = FIRST_STORY + STORIES;
    if (argc > 1) seed = strtoull(argv[1], NULL, 10);
    if (argc > 2) from = strtoull(argv[2], NULL, 10), to = from + 1, loud = argc == 3;
    if (argc > 3) to = strtoull(argv[3], NULL, 10);
    calls_start();
    for (unsigned long long c = from; c < to && different < MOST_DIFFERENT; c++) run_case(c);
    print_counts();
    if (different > 0) return 1;
    if (argc > 2) return 0;
    return too_weak();
}
