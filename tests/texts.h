/* Texts to try the calls on: lists of many shapes, and damaged ones. */
#ifndef TEXTS_H
#define TEXTS_H

#include <stddef.h>
#include <stdint.h>

enum { MOST_BYTES = 72 * 920 };

typedef struct {
    uint8_t byte[MOST_BYTES];
    size_t bytes;
    uint32_t extent; /* of the list, before any damage: the cells that it needs */
} text;

/* Makes a text. Most are one to three records; `large` ones may have as many bytes as a text can, or a few more. */
void make_text(text *x, int large);

/* What stands among blank records: nothing; one byte; a list in front; a list in front and something behind blanks; a
   list behind them. */
enum padded { BLANK, BUT_ONE, LIST_FIRST, LIST_AND_MORE, LIST_LAST, PADDED };

/* Makes a text of so many records, 1 to 915, or a few more where its list is long. */
void make_padded(text *x, uint32_t records, enum padded kind);

#endif
