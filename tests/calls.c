#include "calls.h"

#include <signal.h>
#include <stdio.h>
#include <stdlib.h>
#include <string.h>
#include <unistd.h>

#include "random.h"
#include "reference.h"
#include "texts.h"

enum { SET_UP, RUN, READ, WRITE, CHECK, REST, READ_GROUPS, WRITE_GROUPS, TO_GROUPS, TO_TEXT, CALLS };
static const char *const call_name[CALLS] = {
    "set_up", "run", "read", "write", "check", "rest", "read_groups", "write_groups", "text_to_groups", "groups_to_text"};
enum { ANSWERS = 20 };

lent table, work, script, results, in, out;
unsigned long long seed = 1, this_case, different;
int calls_in_case, loud;

static int this_call;
static unsigned long long calls_made, answered[CALLS][ANSWERS]; /* by answer */
static unsigned long long done[12], refused[12][ANSWERS];       /* operations by code; code 0: any other */
static unsigned long long groups_faults[CALLS][GROUPS_FAULTS];  /* answers 19 by kind */

uint32_t *own(lent *l) { return (uint32_t *)(void *)l->own; }

static uint32_t *words(lent *l) { return (uint32_t *)(void *)l->at; }

/* ---- Comparing */

static void begin(int call) {
    this_call = call;
    calls_in_case++;
    calls_made++;
}

static int unequal(tab_moved a, tab_moved b) {
    return a.answer != b.answer || a.taken != b.taken || a.written != b.written;
}

static void show_numbers(tab_moved m) {
    if (this_call < TO_GROUPS) printf("answer %u, count %u", m.answer, m.taken);
    else printf("answer %u, taken %u, written %u", m.answer, m.taken, m.written);
}

/* `number`: the one argument that is no memory, if there is one. */
static void show(const char *number_name, uint32_t number, tab_moved got, tab_moved should) {
    printf("  %s", call_name[this_call]);
    if (number_name) printf(", %s %u", number_name, number);
    printf(": ");
    show_numbers(got);
    if (unequal(got, should)) printf(", should be "), show_numbers(should);
    printf("\n");
}

static void compare_moves(const char *number_name, uint32_t number, tab_moved got, tab_moved should, lent *const *all,
                          int count) {
    int differs = unequal(got, should);
    for (int i = 0; i < count; i++) differs |= lent_differs(all[i]);
    answered[this_call][should.answer]++;
    if (should.answer == TAB_GROUPS) groups_faults[this_call][ref_groups_fault]++;
    if (loud || differs) show(number_name, number, got, should);
    if (!differs) return;
    for (int i = 0; i < count; i++) lent_show(all[i], loud ? MOST_BYTES : 120);
    printf("DIFFERENT: tab_%s, call %d of the case. Replay: tests/diff %llu %llu\n", call_name[this_call],
           calls_in_case, seed, this_case);
    different++;
}

static void compare(const char *number_name, uint32_t number, tab_outcome got, tab_outcome should, lent *const *all,
                    int count) {
    tab_moved of_library = {got.answer, got.count, 0}, of_reference = {should.answer, should.count, 0};
    compare_moves(number_name, number, of_library, of_reference, all, count);
}

void must_hold(int holds, const char *what) {
    if (holds) return;
    printf("DIFFERENT: %s, call %d of the case. Replay: tests/diff %llu %llu\n", what, calls_in_case, seed, this_case);
    different++;
}

/* A call that faults or does not come back ends the test. */
static void no_answer(int number) {
    printf("DIFFERENT: tab_%s, call %d of the case, %s. Replay: tests/diff %llu %llu\n", call_name[this_call],
           calls_in_case, number == SIGALRM ? "does not come back" : "faults", seed, this_case);
    fflush(stdout);
    _exit(1);
}

/* ---- The calls */

uint32_t call_set_up(size_t table_words, uint32_t cells) {
    begin(SET_UP);
    fill_random(table.own, 4 * table_words);
    lend(&table, table_words);
    tab_outcome should = {ref_set_up(own(&table), table_words, cells), 0};
    tab_outcome got = {tab_set_up(words(&table), table_words, cells), 0};
    compare("cells", cells, got, should, (lent *const[]){&table}, 1);
    return should.answer;
}

/* Counts the operations of a script by what became of them. */
static void count_operations(tab_outcome o, const uint32_t *operations, size_t script_words) {
    if (o.answer >= TAB_TABLE_SIZE && o.answer <= TAB_UNSOUND) return;
    for (uint32_t i = 0; i < o.count; i++) done[operations[4 * i]]++;
    if (o.count == script_words / 4) return;
    uint32_t code = operations[4 * o.count];
    refused[code <= 11 ? code : 0][o.answer]++;
}

tab_outcome call_run(size_t table_words, size_t work_words, size_t script_words, size_t results_words) {
    begin(RUN);
    fill_random(work.own, 4 * work_words);
    fill_random(results.own, 4 * results_words);
    lend(&table, table_words);
    lend(&work, work_words);
    lend(&script, script_words);
    lend(&results, results_words);
    tab_outcome should = ref_run(own(&table), table_words, own(&work), work_words, own(&script), script_words,
                                 own(&results), results_words);
    count_operations(should, own(&script), script_words);
    tab_outcome got = tab_run(words(&table), table_words, words(&work), work_words, words(&script), script_words,
                              words(&results), results_words);
    compare(NULL, 0, got, should, (lent *const[]){&table, &work, &script, &results}, 4);
    return should;
}

typedef tab_outcome (*reader)(uint32_t *, size_t, uint32_t *, size_t, uint32_t, const uint8_t *, size_t);
typedef tab_outcome (*writer)(const uint32_t *, size_t, uint32_t *, size_t, uint32_t, uint8_t *, size_t);
typedef tab_moved (*mover)(const uint8_t *, size_t, uint8_t *, size_t);

static tab_outcome call_reader(int call, reader of_library, reader of_reference, size_t table_words, size_t work_words,
                               uint32_t holder, size_t bytes) {
    begin(call);
    fill_random(work.own, 4 * work_words);
    lend(&table, table_words);
    lend(&work, work_words);
    lend(&in, bytes);
    tab_outcome should = of_reference(own(&table), table_words, own(&work), work_words, holder, in.own, bytes);
    tab_outcome got = of_library(words(&table), table_words, words(&work), work_words, holder, in.at, bytes);
    compare("holder", holder, got, should, (lent *const[]){&table, &work, &in}, 3);
    return should;
}

static tab_outcome call_writer(int call, writer of_library, writer of_reference, size_t table_words, size_t work_words,
                               uint32_t holder, size_t room) {
    begin(call);
    fill_random(work.own, 4 * work_words);
    fill_random(out.own, room);
    lend(&table, table_words);
    lend(&work, work_words);
    lend(&out, room);
    tab_outcome should = of_reference(own(&table), table_words, own(&work), work_words, holder, out.own, room);
    tab_outcome got = of_library(words(&table), table_words, words(&work), work_words, holder, out.at, room);
    compare("holder", holder, got, should, (lent *const[]){&table, &work, &out}, 3);
    return should;
}

static tab_moved call_mover(int call, mover of_library, mover of_reference, size_t bytes, size_t room) {
    begin(call);
    fill_random(out.own, room);
    lend(&in, bytes);
    lend(&out, room);
    tab_moved should = of_reference(in.own, bytes, out.own, room), got = of_library(in.at, bytes, out.at, room);
    compare_moves(NULL, 0, got, should, (lent *const[]){&in, &out}, 2);
    return should;
}

tab_outcome call_read(size_t table_words, size_t work_words, uint32_t holder, size_t bytes) {
    return call_reader(READ, tab_read, ref_read, table_words, work_words, holder, bytes);
}

tab_outcome call_read_groups(size_t table_words, size_t work_words, uint32_t holder, size_t bytes) {
    return call_reader(READ_GROUPS, tab_read_groups, ref_read_groups, table_words, work_words, holder, bytes);
}

tab_outcome call_write(size_t table_words, size_t work_words, uint32_t holder, size_t room) {
    return call_writer(WRITE, tab_write, ref_write, table_words, work_words, holder, room);
}

tab_outcome call_write_groups(size_t table_words, size_t work_words, uint32_t holder, size_t room) {
    return call_writer(WRITE_GROUPS, tab_write_groups, ref_write_groups, table_words, work_words, holder, room);
}

tab_moved call_text_to_groups(size_t bytes, size_t room) {
    return call_mover(TO_GROUPS, tab_text_to_groups, ref_text_to_groups, bytes, room);
}

tab_moved call_groups_to_text(size_t bytes, size_t room) {
    return call_mover(TO_TEXT, tab_groups_to_text, ref_groups_to_text, bytes, room);
}

tab_outcome call_check(size_t bytes) {
    begin(CHECK);
    lend(&in, bytes);
    tab_outcome should = ref_check(in.own, bytes);
    compare(NULL, 0, tab_check(in.at, bytes), should, (lent *const[]){&in}, 1);
    return should;
}

/* A place, told as an outcome: 1 where nothing is left behind it, and the place. */
static tab_outcome at_place(size_t place, size_t bytes) {
    return (tab_outcome){place == bytes, place > UINT32_MAX ? UINT32_MAX : (uint32_t)place};
}

size_t call_rest(size_t bytes) {
    begin(REST);
    lend(&in, bytes);
    size_t should = ref_rest(in.own, bytes);
    compare(NULL, 0, at_place(tab_rest(in.at, bytes), bytes), at_place(should, bytes), (lent *const[]){&in}, 1);
    return should;
}

void calls_start(void) {
    lent_make(&table, "table", 4, 16100);
    lent_make(&work, "work", 4, 8100);
    lent_make(&script, "script", 4, 16500);
    lent_make(&results, "results", 4, 8300);
    lent_make(&in, "input", 1, MOST_BYTES);
    lent_make(&out, "out", 1, MOST_BYTES);
    signal(SIGSEGV, no_answer);
    signal(SIGBUS, no_answer);
    signal(SIGILL, no_answer);
    signal(SIGFPE, no_answer);
    signal(SIGALRM, no_answer);
}

/* ---- Counting */

#define SET(a) (1u << (a))

/* The answers that each call can give. */
static const unsigned answers[CALLS] = {
    [SET_UP] = SET(0) | SET(1),
    [RUN] = SET(13) - 1,
    [READ] = SET(0) | SET(1) | SET(2) | SET(5) | SET(7) | SET(10) | SET(12) | SET(13) | SET(14) | SET(15) | SET(16) |
             SET(17),
    [WRITE] = SET(0) | SET(1) | SET(2) | SET(5) | SET(7) | SET(17) | SET(18),
    [CHECK] = SET(0) | SET(13) | SET(14) | SET(15) | SET(16) | SET(17),
    [REST] = SET(0) | SET(1),
    [READ_GROUPS] = SET(0) | SET(1) | SET(2) | SET(5) | SET(7) | SET(10) | SET(12) | SET(13) | SET(14) | SET(17) |
                    SET(19),
    [WRITE_GROUPS] = SET(0) | SET(1) | SET(2) | SET(5) | SET(7) | SET(17) | SET(18),
    [TO_GROUPS] = SET(0) | SET(13) | SET(14) | SET(15) | SET(16) | SET(17) | SET(18),
    [TO_TEXT] = SET(0) | SET(13) | SET(14) | SET(17) | SET(18) | SET(19),
};

/* The answers that can refuse each operation. */
static const unsigned refusals[12] = {
    [0] = SET(6),
    [TAB_PFA] = SET(7) | SET(12),
    [TAB_PFL] = SET(7) | SET(8) | SET(12),
    [TAB_DECAP] = SET(7) | SET(8) | SET(9) | SET(10) | SET(11),
    [TAB_ADV] = SET(7) | SET(8) | SET(9) | SET(10),
    [TAB_BORROW] = SET(7) | SET(8) | SET(10),
    [TAB_ERASE] = SET(7),
    [TAB_INV] = SET(7) | SET(11),
    [TAB_CINV] = SET(7) | SET(8) | SET(10) | SET(12),
    [TAB_CONC] = SET(7) | SET(8) | SET(11),
    [TAB_FIRST] = SET(7) | SET(9),
    [TAB_LENGTH] = SET(7),
};

static const char *const fault_name[GROUPS_FAULTS] = {"runs out", "too many groups", "too large", "an atom at the top"};

static int calls_too_weak(void) {
    int weak = 0;
    for (int call = 0; call < CALLS; call++) {
        for (unsigned a = 0; a < ANSWERS; a++) {
            if ((answers[call] & SET(a)) == 0 || answered[call][a] > 0) continue;
            printf("tests: tab_%s never answered %u\n", call_name[call], a);
            weak = 1;
        }
        for (int why = 0; why < GROUPS_FAULTS; why++) {
            if ((answers[call] & SET(TAB_GROUPS)) == 0 || groups_faults[call][why] > 0) continue;
            printf("tests: tab_%s never met 19 for \"%s\"\n", call_name[call], fault_name[why]);
            weak = 1;
        }
    }
    return weak;
}

int too_weak(void) {
    int weak = calls_too_weak();
    for (unsigned code = 0; code < 12; code++) {
        if (code > 0 && done[code] == 0) printf("tests: operation %u was never done\n", code), weak = 1;
        for (unsigned a = 0; a < ANSWERS; a++) {
            if ((refusals[code] & SET(a)) == 0 || refused[code][a] > 0) continue;
            printf("tests: operation %u was never refused by %u\n", code, a);
            weak = 1;
        }
    }
    return weak;
}

void print_counts(void) {
    printf("tests: seed %llu: %llu calls, %llu different", seed, calls_made, different);
    for (int call = 0; call < CALLS; call++) {
        printf("; %s", call_name[call]);
        for (int a = 0; a < ANSWERS; a++)
            if (answered[call][a] > 0) printf(" %d:%llu", a, answered[call][a]);
        for (int why = 0; why < GROUPS_FAULTS; why++)
            if (groups_faults[call][why] > 0) printf(" (19 %s:%llu)", fault_name[why], groups_faults[call][why]);
    }
    printf("\n");
}
