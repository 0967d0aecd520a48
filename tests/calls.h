/*
 * One call, made twice: by the library on memory lent for it, by the reference on a copy. The answers, the numbers and
 * all that was lent are compared. Whoever makes a call first puts what is to be lent in `own` of the runs below; work
 * space, results and output are filled at random.
 */
#ifndef CALLS_H
#define CALLS_H

#include "lent.h"
#include "tabeshilo.h"

extern lent table, work, script, results, in, out;

/* Where we are, for what is printed; `loud`: every call is printed. */
extern unsigned long long seed, this_case;
extern int calls_in_case, loud;

/* Calls that differed. */
extern unsigned long long different;

/* The words of a run as the reference sees them. */
uint32_t *own(lent *l);

void calls_start(void);

/* Each gives what the reference answers. */
uint32_t call_set_up(size_t table_words, uint32_t cells);
tab_outcome call_run(size_t table_words, size_t work_words, size_t script_words, size_t results_words);
tab_outcome call_read(size_t table_words, size_t work_words, uint32_t holder, size_t bytes);
tab_outcome call_write(size_t table_words, size_t work_words, uint32_t holder, size_t room);
tab_outcome call_check(size_t bytes);
size_t call_rest(size_t bytes);
tab_outcome call_read_groups(size_t table_words, size_t work_words, uint32_t holder, size_t bytes);
tab_outcome call_write_groups(size_t table_words, size_t work_words, uint32_t holder, size_t room);
tab_moved call_text_to_groups(size_t bytes, size_t room);
tab_moved call_groups_to_text(size_t bytes, size_t room);

/* Says that something does not hold between calls that did not differ, each by itself; counts it as a difference. */
void must_hold(int holds, const char *what);

/* One line: the calls made, by call and answer. */
void print_counts(void);

/* Says which answers never came up, which kinds of answer 19, and which refusals of which operations: then the test is
   too weak to be trusted. */
int too_weak(void);

#endif
