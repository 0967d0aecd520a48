/*
 * dump.c: builds the song of chorus.session by calls from C and writes its table to standard output as it lies in memory,
 * for tools/picture to draw. A dump is nothing more than these words.
 */
#include <stdint.h>
#include <stdio.h>
#include <string.h>

#include "tabeshilo.h"

enum { CELLS = 20, SONG = 0, VERSE, CHORUS, BRIDGE, AGAIN };

static uint32_t table[TAB_TABLE_WORDS(CELLS)], work[TAB_WORK_WORDS(CELLS)];

static int read_list(uint32_t holder, const char *text) {
    uint8_t record[TAB_RECORD];
    memset(record, ' ', sizeof record);
    memcpy(record, text, strlen(text));
    return tab_read(table, TAB_TABLE_WORDS(CELLS), work, TAB_WORK_WORDS(CELLS), holder, record, sizeof record).answer == TAB_DONE;
}

/* The song from its end: PFL puts a section in front, and BORROW makes one more name for the chorus. */
static int arrange(void) {
    static const uint32_t script[] = {
        TAB_BORROW, CHORUS, AGAIN, 0, TAB_PFL, SONG, AGAIN,  0, TAB_BORROW, CHORUS, AGAIN, 0, TAB_PFL, SONG, AGAIN,  0, TAB_PFL, SONG, BRIDGE, 0,
        TAB_BORROW, CHORUS, AGAIN, 0, TAB_PFL, SONG, AGAIN,  0, TAB_PFL,    SONG,   VERSE, 0, TAB_PFL, SONG, CHORUS, 0};
    enum { WORDS = sizeof script / sizeof script[0], STEPS = WORDS / TAB_SCRIPT_WORDS(1) };
    uint32_t results[TAB_RESULT_WORDS(STEPS)];
    return tab_run(table, TAB_TABLE_WORDS(CELLS), work, TAB_WORK_WORDS(CELLS), script, WORDS, results, TAB_RESULT_WORDS(STEPS)).answer == TAB_DONE;
}

int main(void) {
    if (tab_set_up(table, TAB_TABLE_WORDS(CELLS), CELLS) != TAB_DONE) return 1;
    if (!read_list(VERSE, "(10,11,12)") || !read_list(CHORUS, "(70,71,72)") || !read_list(BRIDGE, "(20,21)")) return 1;
    if (!arrange()) return 1;
    return fwrite(table, sizeof table, 1, stdout) != 1;
}
