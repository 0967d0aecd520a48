/*
 * song.c: a song from text to playing to free cells, over include/tabeshilo.h. Run it with examples/run.
 *
 * Markers are atoms; a section has markers, and a song has sections. The song here comes in as three sections (a verse,
 * a bridge and a chorus), is arranged so that the chorus is heard four times from the same cells, is played without
 * being used up, and is erased. Every answer is looked at; the first that is not the one expected ends the program with
 * status 1.
 */
#include <stdint.h>
#include <stdio.h>
#include <stdlib.h>
#include <string.h>

#include "tabeshilo.h"

enum { CELLS = 40 };

/* Who holds what. A holder is one of the table's 64 places that name a list; these names are the program's own. */
enum { SONG, PARTS, VERSE, BRIDGE, CHORUS, ELEMENT, PLAYER };

/* All the memory there is. The engine keeps nothing between calls: the pool is these words. */
static uint32_t table[TAB_TABLE_WORDS(CELLS)];
static uint32_t work[TAB_WORK_WORDS(CELLS)];

typedef struct {
    uint32_t kind, value;
} result; /* the two result words of one operation, in the order in which the engine writes them */

static void expect(uint32_t answer, uint32_t wanted, const char *what) {
    if (answer == wanted) return;
    printf("%s: %s, not %s\n", what, tab_answer_name(answer), tab_answer_name(wanted));
    exit(1);
}

/* Runs a script of one operation. It is refused exactly when the answer is not TAB_DONE, and has no result then. */
static uint32_t try_operation(uint32_t code, uint32_t a, uint32_t b, uint32_t v, result *r) {
    uint32_t script[TAB_SCRIPT_WORDS(1)] = {code, a, b, v}, words[TAB_RESULT_WORDS(1)] = {TAB_IS_NOTHING, 0};
    tab_outcome o =
        tab_run(table, TAB_TABLE_WORDS(CELLS), work, TAB_WORK_WORDS(CELLS), script, TAB_SCRIPT_WORDS(1), words, TAB_RESULT_WORDS(1));
    r->kind = words[0];
    r->value = words[1];
    return o.answer;
}

/* The same where nothing but "done" will do. Words that the operation does not use may be anything: 0 here. */
static result operation(uint32_t code, uint32_t a, uint32_t b, const char *what) {
    result r;
    expect(try_operation(code, a, b, 0, &r), TAB_DONE, what);
    return r;
}

static unsigned free_cells(void) { return (unsigned)tab_free_cells(table, TAB_TABLE_WORDS(CELLS)); }

/* How often the first cell of a holder's list is named. Looking into the table is allowed; changing it seldom is. */
static unsigned named(uint32_t holder) { return (unsigned)table[TAB_COUNT_AT(table[TAB_HOLDER_AT(holder)])]; }

/* Text goes in as whole records of 72 bytes, so a short one is filled with blanks. */
static void read_list(uint32_t holder, const char *text) {
    uint8_t record[TAB_RECORD];
    size_t bytes = strlen(text);
    if (bytes > sizeof record) exit(1);
    memset(record, ' ', sizeof record);
    memcpy(record, text, bytes);
    tab_outcome o = tab_read(table, TAB_TABLE_WORDS(CELLS), work, TAB_WORK_WORDS(CELLS), holder, record, sizeof record);
    expect(o.answer, TAB_DONE, "read");
}

/* Text comes out as whole records too; the fill is cut off before printing. */
static void print_list(const char *name, uint32_t holder) {
    uint8_t out[4 * TAB_RECORD];
    tab_outcome o = tab_write(table, TAB_TABLE_WORDS(CELLS), work, TAB_WORK_WORDS(CELLS), holder, out, sizeof out);
    expect(o.answer, TAB_DONE, "write");
    uint32_t bytes = o.count;
    while (out[bytes - 1] == ' ') bytes--; /* a list ends in ")", so this stops */
    printf("%s %.*s\n", name, (int)bytes, (const char *)out);
}

/*
 * Plays the list in a holder, marker by marker, and leaves the holder null. ADV takes the first element off for this
 * holder alone: whoever else holds the list keeps it whole. A section goes into the next holder and is played there,
 * so a list of k levels takes k + 1 holders from PLAYER on (the last stays null).
 */
static void play(uint32_t holder) {
    while (operation(TAB_LENGTH, holder, 0, "LENGTH").value > 0) {
        result first = operation(TAB_ADV, holder, holder + 1, "ADV");
        if (first.kind == TAB_IS_LIST) {
            play(holder + 1);
            printf(" |");
        } else {
            printf(" %o", (unsigned)first.value); /* in octal, as the text form has it */
        }
    }
}

/* Puts the sections together as one script. PFL puts an element in front, so the last section goes first. */
static void arrange(void) {
    static const uint32_t order[] = {VERSE, CHORUS, BRIDGE, CHORUS, VERSE, CHORUS, CHORUS};
    enum { SECTIONS = sizeof order / sizeof order[0], STEPS = 2 * SECTIONS };
    uint32_t script[TAB_SCRIPT_WORDS(STEPS)], results[TAB_RESULT_WORDS(STEPS)], *w = script;
    for (int i = SECTIONS - 1; i >= 0; i--) {
        /* BORROW: a second name for the same cells, no new cell. PFL: one new cell, which takes ELEMENT's list. */
        uint32_t steps[] = {TAB_BORROW, order[i], ELEMENT, 0, TAB_PFL, SONG, ELEMENT, 0};
        memcpy(w, steps, sizeof steps);
        w += TAB_SCRIPT_WORDS(2);
    }
    tab_outcome o = tab_run(table, TAB_TABLE_WORDS(CELLS), work, TAB_WORK_WORDS(CELLS), script, TAB_SCRIPT_WORDS(STEPS), results,
                            TAB_RESULT_WORDS(STEPS));
    expect(o.answer, TAB_DONE, "the script of arrange");
}

static unsigned erase(uint32_t holder) { return (unsigned)operation(TAB_ERASE, holder, 0, "ERASE").value; }

int main(void) {
    if (tab_version() != TAB_VERSION) {
        printf("the library has version %u, the header %u\n", (unsigned)tab_version(), (unsigned)TAB_VERSION);
        return 1;
    }
    expect(tab_set_up(table, TAB_TABLE_WORDS(CELLS), CELLS), TAB_DONE, "set up");
    printf("free at first: %u\n", free_cells());

    /* One cell for each marker and one for each section: 3 + 8. */
    read_list(PARTS, "((10,11,12),(20,21),(70,71,72))");
    print_list("read:", PARTS);
    printf("free: %u\n", free_cells());

    /* DECAP takes a section off and frees its cell; the section's own cells now belong to the other holder. */
    operation(TAB_DECAP, PARTS, VERSE, "DECAP");
    operation(TAB_DECAP, PARTS, BRIDGE, "DECAP");
    operation(TAB_DECAP, PARTS, CHORUS, "DECAP");
    print_list("verse:", VERSE);
    print_list("bridge:", BRIDGE);
    print_list("chorus:", CHORUS);
    printf("free: %u\n", free_cells());

    /* Seven sections, seven new cells; the markers are not copied. */
    arrange();
    print_list("song:", SONG);
    printf("free: %u\n", free_cells());

    /* The chorus is named by its holder and by four cells of the song, so nobody may take it apart in place. */
    result none;
    expect(try_operation(TAB_DECAP, CHORUS, ELEMENT, 0, &none), TAB_SHARED, "DECAP of a shared chorus");
    printf("the chorus is named %u times, so DECAP is refused: %d %s\n", named(CHORUS), TAB_SHARED, tab_answer_name(TAB_SHARED));

    /* Play a borrowed song: no cell is needed, none is freed, and the song is whole afterwards. */
    operation(TAB_BORROW, SONG, PLAYER, "BORROW");
    printf("play:");
    play(PLAYER);
    printf("\n");
    print_list("song:", SONG);
    printf("free: %u\n", free_cells());

    /* The parts' own holders let go. The song still reaches every cell, so nothing is freed. */
    printf("erase verse: %u freed\n", erase(VERSE));
    printf("erase bridge: %u freed\n", erase(BRIDGE));
    printf("erase chorus: %u freed\n", erase(CHORUS));
    printf("free: %u\n", free_cells());

    /* Now nobody else holds them: seven cells of the song and eight markers, each once. */
    printf("erase song: %u freed\n", erase(SONG));
    printf("free at last: %u\n", free_cells());
    return 0;
}
