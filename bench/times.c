/*
 * Times of the library beside those of the plain C implementation in tests/reference.c, in one process: each case on
 * eight inputs, both implementations in turn, the best of many rounds. What both leave behind is compared first.
 */
#include "cases.h"
#include "reference.h"

#include <stdio.h>
#include <string.h>
#include <time.h>

enum { INPUTS = 8, ROUNDS = 10 };
static const double LEAST = 0.4; /* seconds for a case */

static const calls both[2] = {{tab_set_up, tab_run, tab_read, tab_write, tab_check, tab_rest, tab_read_groups,
                               tab_write_groups, tab_text_to_groups, tab_groups_to_text},
                              {ref_set_up, ref_run, ref_read, ref_write, ref_check, ref_rest, ref_read_groups,
                               ref_write_groups, ref_text_to_groups, ref_groups_to_text}};
static given input[INPUTS];
static left after[2];

static double seconds(void) {
    struct timespec t;
    clock_gettime(CLOCK_MONOTONIC, &t);
    return (double)t.tv_sec + 1e-9 * (double)t.tv_nsec;
}

static double call_takes(int which, const bench_case *c, const given *g, left *l) {
    put_before(g, l);
    double start = seconds();
    for (int i = 0; i < c->times; i++) make_call(&both[which], c->call, g, l);
    return (seconds() - start) / c->times;
}

static int alike(const bench_case *c) {
    for (int i = 0; i < INPUTS; i++) {
        c->make(&input[i], c->cells);
        for (int which = 0; which < 2; which++) {
            memset(&after[which], 0x5a, sizeof after[which]);
            call_takes(which, c, &input[i], &after[which]);
        }
        if (memcmp(&after[0], &after[1], sizeof after[0]) != 0 || after[0].outcome.answer != c->answer) return 0;
    }
    return 1;
}

static void best_of(const bench_case *c, double best[2]) {
    best[0] = best[1] = 1e9;
    double end = seconds() + LEAST;
    for (int round = 0; round < ROUNDS || seconds() < end; round++)
        for (int k = 0; k < 2; k++) {
            int which = (k + round) % 2;
            double sum = 0;
            for (int i = 0; i < INPUTS; i++) sum += call_takes(which, c, &input[i], &after[0]);
            if (sum / INPUTS < best[which]) best[which] = sum / INPUTS;
        }
}

int main(void) {
    printf("%-40s %12s %12s %7s\n", "case (nanoseconds a call)", "plain C", "library", "ratio");
    for (int i = 0; i < number_of_cases; i++) {
        double best[2];
        if (!alike(&cases[i])) {
            printf("%-40s the two DIFFER\n", cases[i].name);
            return 1;
        }
        best_of(&cases[i], best);
        printf("%-40s %12.0f %12.0f %7.3f\n", cases[i].name, 1e9 * best[1], 1e9 * best[0], best[0] / best[1]);
        fflush(stdout);
    }
    return 0;
}
