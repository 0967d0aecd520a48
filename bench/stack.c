/*
 * The stack that each call uses: the stack below is painted, the call is made, and the lowest byte that has changed is
 * looked for. What a call of a function that does nothing changes is taken off. tab_read_groups has functions that call
 * themselves level by level, so it has an aim of its own.
 */
#include "cases.h"

#include <stdio.h>
#include <string.h>

enum { ROOM = 131072, PAINT = 0xa5, AIM = 4096, AIM_BY_LEVEL = TAB_LEVELS * 256 };

static const calls library = {tab_set_up, tab_run,         tab_read,         tab_write,          tab_check,
                              tab_rest,   tab_read_groups, tab_write_groups, tab_text_to_groups, tab_groups_to_text};
static given input;
static left after;
static volatile uint8_t *volatile lowest; /* of what was painted */

__attribute__((noinline)) static void paint(void) {
    volatile uint8_t room[ROOM];
    for (size_t i = 0; i < ROOM; i++) room[i] = PAINT;
    lowest = room;
}

__attribute__((noinline)) static size_t changed(void) {
    volatile uint8_t *from = lowest;
    size_t i = 0;
    while (i < ROOM && from[i] == PAINT) i++;
    return ROOM - i;
}

static uint32_t no_set_up(uint32_t *t, size_t tn, uint32_t n) {
    (void)t, (void)tn, (void)n;
    return 0;
}
static tab_outcome no_run(uint32_t *t, size_t tn, uint32_t *w, size_t wn, const uint32_t *s, size_t sn, uint32_t *r,
                          size_t rn) {
    (void)t, (void)tn, (void)w, (void)wn, (void)s, (void)sn, (void)r, (void)rn;
    return (tab_outcome){0, 0};
}
static tab_outcome no_read(uint32_t *t, size_t tn, uint32_t *w, size_t wn, uint32_t h, const uint8_t *s, size_t sn) {
    (void)t, (void)tn, (void)w, (void)wn, (void)h, (void)s, (void)sn;
    return (tab_outcome){0, 0};
}
static tab_outcome no_write(const uint32_t *t, size_t tn, uint32_t *w, size_t wn, uint32_t h, uint8_t *o, size_t on) {
    (void)t, (void)tn, (void)w, (void)wn, (void)h, (void)o, (void)on;
    return (tab_outcome){0, 0};
}
static tab_outcome no_check(const uint8_t *s, size_t sn) {
    (void)s, (void)sn;
    return (tab_outcome){0, 0};
}
static size_t no_rest(const uint8_t *s, size_t sn) {
    (void)s, (void)sn;
    return 0;
}
static tab_moved no_move(const uint8_t *s, size_t sn, uint8_t *o, size_t on) {
    (void)s, (void)sn, (void)o, (void)on;
    return (tab_moved){0, 0, 0};
}
static const calls nothing = {no_set_up, no_run, no_read, no_write, no_check, no_rest, no_read, no_write, no_move, no_move};

/* The second call counts: in the first the loader may look up memset, which is not the library's doing. */
static size_t deepest(const calls *of, enum call call) {
    size_t used = 0;
    for (int twice = 0; twice < 2; twice++) {
        put_before(&input, &after);
        paint();
        make_call(of, call, &input, &after);
        used = changed();
    }
    return used;
}

static size_t aim(int call) { return call == READ_GROUPS ? AIM_BY_LEVEL : AIM; }

int main(void) {
    static const char *const names[CALLS] = {"tab_set_up",         "tab_run",           "tab_read",        "tab_write",
                                             "tab_check",          "tab_rest",          "tab_read_groups", "tab_write_groups",
                                             "tab_text_to_groups", "tab_groups_to_text"};
    size_t most[CALLS] = {0};
    int over = 0;
    for (int i = 0; i < number_of_cases; i++) {
        cases[i].make(&input, cases[i].cells);
        size_t none = deepest(&nothing, cases[i].call), used = deepest(&library, cases[i].call);
        used = used > none ? used - none : 0;
        if (used > most[cases[i].call]) most[cases[i].call] = used;
    }
    printf("stack, the most over all cases (bytes):");
    for (int call = 0; call < CALLS; call++) {
        printf(" %s %u%s", names[call], (unsigned)most[call], call < CALLS - 1 ? "," : "\n");
        over |= most[call] >= aim(call);
    }
    return over;
}
