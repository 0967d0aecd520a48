/* What the parts of the self test share: selftest.c has the base and runs all of it, groupcases.c has groups. */
#ifndef SELFTEST_H
#define SELFTEST_H

#include "reference.h"

/* Built with -DLIBRARY every ref_ is the library's call. */
#ifdef LIBRARY
#define SUBJECT "library"
#define ref_set_up tab_set_up
#define ref_run tab_run
#define ref_read tab_read
#define ref_write tab_write
#define ref_check tab_check
#define ref_rest tab_rest
#define ref_read_groups tab_read_groups
#define ref_write_groups tab_write_groups
#define ref_text_to_groups tab_text_to_groups
#define ref_groups_to_text tab_groups_to_text
#else
#define SUBJECT "reference"
#endif

/* Each is one check. */
void is(const char *what, long got, long should);
void is_text(const char *what, const char *got, const char *should);
void are_bytes(const char *what, const uint8_t *got, size_t got_bytes, const uint8_t *should, size_t bytes);

/* The pool to play with: its words, one operation on it, and its free cells. */
extern uint32_t t[16066], work[8000];
size_t length(void);
void set_up(uint32_t n);
uint32_t operate(uint32_t code, uint32_t a, uint32_t b, uint32_t v);
uint32_t free_now(void);

/* A text filled up to its record, in records; read into a holder; and a holder's text without the fill. */
extern uint8_t records[65592];
size_t record(const char *text);
uint32_t reads(const char *text, uint32_t holder);
const char *written(uint32_t holder);

/* A list of so many levels, at most 249: brackets alone. */
const char *brackets(int levels);

/* Where the first element of a text ends, and the value of its digits if it is an atom. */
size_t element_end(const char *s);
uint32_t octal(const char *s);

void groups_cases(void);

#endif
