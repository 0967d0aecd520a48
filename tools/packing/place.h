/* Where a refused list is at fault, for what is told to a person: the library's answers name no place. */
#ifndef PLACE_H
#define PLACE_H

#include <stddef.h>
#include <stdint.h>

/* The first byte that refuses the list at the start of a text; `bytes` if the text ends before the list does. */
size_t place_in_text(const uint8_t *text, size_t bytes);

/* The first byte of the number that refuses the list at the start of groups, `bytes` if they end before the list does;
   and why in words. */
size_t place_in_groups(const uint8_t *groups, size_t bytes, const char **why);

#endif
