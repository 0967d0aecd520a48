/*
 * padded.c: reads a file of songs from standard input, in records of 72 bytes, the last of them blank. Run it with
 * examples/run.
 *
 * Each song goes to the bank, which is a list of songs in one holder. The answer END says that no song is left, whether
 * blank records follow or none do: status 0. Any other answer refuses the next song, and the program says where that
 * is: status 1. A bank that has no room for the next song is status 2.
 */
#include <stdint.h>
#include <stdio.h>
#include <stdlib.h>

#include "tabeshilo.h"

enum { CELLS = 100, TABLE = TAB_TABLE_WORDS(CELLS), WORK = TAB_WORK_WORDS(CELLS), BANK = 0, SONG = 1 };

static uint32_t table[TABLE], work[WORK];
static uint8_t file[TAB_TEXT + 1]; /* a byte more than a text can have, so that a longer file is refused and not cut */

/* Ends the program where the bank has no room for the song, or its text no room for the bank. */
static void done_or_exit(tab_outcome o) {
    if (o.answer == TAB_DONE) return;
    printf("  the bank: %u %s\n", (unsigned)o.answer, tab_answer_name(o.answer));
    exit(2);
}

/* One operation on bank and song. */
static void operation(uint32_t code) {
    uint32_t script[TAB_SCRIPT_WORDS(1)] = {code, BANK, SONG, 0}, results[TAB_RESULT_WORDS(1)];
    done_or_exit(tab_run(table, TABLE, work, WORK, script, TAB_SCRIPT_WORDS(1), results, TAB_RESULT_WORDS(1)));
}

/* Puts the song in front of the bank. Its holder is null then, as the next read wants it. */
static void keep_song(size_t at, uint32_t taken) {
    printf("  a song in bytes %u to %u\n", (unsigned)at, (unsigned)(at + taken - 1));
    operation(TAB_PFL);
}

static void print_bank(void) {
    static uint8_t out[TAB_TEXT];
    operation(TAB_INV); /* the song that was read last is the first */
    tab_outcome o = tab_write(table, TABLE, work, WORK, BANK, out, sizeof out);
    done_or_exit(o);
    while (o.count > 0 && out[o.count - 1] == ' ') o.count--;
    printf("  bank: %.*s\n", (int)o.count, (const char *)out);
}

int main(void) {
    size_t bytes = fread(file, 1, sizeof file, stdin);
    if (tab_set_up(table, TABLE, CELLS) != TAB_DONE) return 2;

    size_t at = 0;
    tab_outcome o;
    while ((o = tab_read(table, TABLE, work, WORK, SONG, file + at, bytes - at)).answer == TAB_DONE) {
        keep_song(at, o.count);
        at += o.count;
    }

    print_bank();
    printf("  %u bytes, %u with songs", (unsigned)bytes, (unsigned)at);
    printf(", then %u %s\n", (unsigned)o.answer, tab_answer_name(o.answer));
    return o.answer != TAB_END;
}
