/* The ten calls once more, in plain C and from the rules alone: reference.c has them. */
#ifndef REFERENCE_H
#define REFERENCE_H

#include "tabeshilo.h"

uint32_t ref_set_up(uint32_t *table, size_t words, uint32_t cells);
tab_outcome ref_run(uint32_t *table, size_t table_words, uint32_t *work, size_t work_words, const uint32_t *script,
                    size_t script_words, uint32_t *results, size_t results_words);
tab_outcome ref_read(uint32_t *table, size_t table_words, uint32_t *work, size_t work_words, uint32_t holder,
                     const uint8_t *text, size_t bytes);
tab_outcome ref_write(const uint32_t *table, size_t table_words, uint32_t *work, size_t work_words, uint32_t holder,
                      uint8_t *out, size_t room);
tab_outcome ref_check(const uint8_t *text, size_t bytes);
size_t ref_rest(const uint8_t *text, size_t bytes);
tab_outcome ref_read_groups(uint32_t *table, size_t words, uint32_t *work, size_t work_words, uint32_t holder,
                            const uint8_t *groups, size_t bytes);
tab_outcome ref_write_groups(const uint32_t *table, size_t words, uint32_t *work, size_t work_words, uint32_t holder,
                             uint8_t *out, size_t room);
tab_moved ref_text_to_groups(const uint8_t *text, size_t bytes, uint8_t *out, size_t room);
tab_moved ref_groups_to_text(const uint8_t *groups, size_t bytes, uint8_t *out, size_t room);

/* Why the last answer 19 was given; of use behind such an answer alone. */
enum groups_fault { RUNS_OUT, TOO_MANY_GROUPS, TOO_LARGE, ATOM_AT_TOP, GROUPS_FAULTS };
extern enum groups_fault ref_groups_fault;

/* For making scripts: takes a sound table, then one operation after the other; gives the answer, 0 if it was done. */
void ref_open(const uint32_t *table);
uint32_t ref_step(const uint32_t operation[4], uint32_t result[2]);

#endif
