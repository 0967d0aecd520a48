/*
 * stored.c: from text to the cartridge and from the cartridge into the pool. Run it with examples/run.
 *
 * Songs come as text on standard input, in records of 72 bytes. The repacker's half moves each to groups, one song
 * behind the other: that is the cartridge. The game's half reads the cartridge song by song into a bank, which is a
 * list of songs in one holder. At the end the bank is built once more, from the text, and both pools are compared word
 * for word. Status 0: every song was packed and loaded, and the pools are the same.
 */
#include <stdint.h>
#include <stdio.h>
#include <stdlib.h>
#include <string.h>

#include "tabeshilo.h"

enum { CELLS = 200, TABLE = TAB_TABLE_WORDS(CELLS), WORK = TAB_WORK_WORDS(CELLS), BANK = 0, SONG = 1 };

static uint32_t table[TABLE], work[WORK];
static uint8_t cartridge[TAB_TEXT];
static uint8_t text[TAB_TEXT + 1]; /* a byte more than a text can have, so that a longer file is refused and not cut */

static void done_or_exit(uint32_t answer, const char *what) {
    if (answer == TAB_DONE) return;
    printf("  %s: %u %s\n", what, (unsigned)answer, tab_answer_name(answer));
    exit(1);
}

/* Moves every song of the text to groups, and gives the bytes of the cartridge. No table is needed for it. */
static size_t pack(size_t bytes) {
    size_t at = 0, used = 0;
    tab_moved m;
    while ((m = tab_text_to_groups(text + at, bytes - at, cartridge + used, sizeof cartridge - used)).answer == TAB_DONE) {
        printf("  packed: %u bytes of text, %u of groups\n", (unsigned)m.taken, (unsigned)m.written);
        at += m.taken;
        used += m.written;
    }
    if (m.answer != TAB_END) done_or_exit(m.answer, "the next song of the text");
    return used;
}

static void new_bank(void) { done_or_exit(tab_set_up(table, TABLE, CELLS), "set up"); }

/* Puts the song in front of the bank. Its holder is null then, as the next read wants it. */
static void put_in_bank(void) {
    uint32_t script[TAB_SCRIPT_WORDS(1)] = {TAB_PFL, BANK, SONG, 0}, results[TAB_RESULT_WORDS(1)];
    done_or_exit(tab_run(table, TABLE, work, WORK, script, TAB_SCRIPT_WORDS(1), results, TAB_RESULT_WORDS(1)).answer, "PFL");
}

static void keep_song(size_t at, uint32_t taken) {
    put_in_bank();
    printf("  loaded: bytes %u to %u", (unsigned)at, (unsigned)(at + taken - 1));
    printf(", %u cells free\n", (unsigned)tab_free_cells(table, TABLE));
}

static void load(size_t used) {
    size_t at = 0;
    tab_outcome o;
    while ((o = tab_read_groups(table, TABLE, work, WORK, SONG, cartridge + at, used - at)).answer == TAB_DONE) {
        keep_song(at, o.count);
        at += o.count;
    }
    if (o.answer != TAB_END) done_or_exit(o.answer, "the next song of the cartridge");
}

static void load_from_text(size_t bytes) {
    size_t at = 0;
    tab_outcome o;
    while ((o = tab_read(table, TABLE, work, WORK, SONG, text + at, bytes - at)).answer == TAB_DONE) {
        put_in_bank();
        at += o.count;
    }
}

/* The bank itself in groups: a list like any other. */
static void print_bank(void) {
    static uint8_t out[TAB_TEXT];
    tab_outcome o = tab_write_groups(table, TABLE, work, WORK, BANK, out, sizeof out);
    done_or_exit(o.answer, "the bank");
    tab_moved m = tab_groups_to_text(out, o.count, text, sizeof text);
    done_or_exit(m.answer, "the bank as text");
    printf("  the whole bank: %u bytes of groups, %u of text\n", (unsigned)o.count, (unsigned)m.written);
}

int main(void) {
    static uint32_t from_groups[TABLE];
    size_t bytes = fread(text, 1, sizeof text, stdin), used = pack(bytes);
    printf("  cartridge: %u bytes\n", (unsigned)used);

    new_bank();
    load(used);
    memcpy(from_groups, table, sizeof table);

    new_bank();
    load_from_text(bytes);
    int same = memcmp(from_groups, table, sizeof table) == 0;
    printf("  from text: %s\n", same ? "the same cells" : "OTHER CELLS");

    print_bank();
    return !same;
}
