/*
 * The work of tools/groups: moves a file of songs from standard input to standard output, from text to groups, or from
 * groups to text if there is a word behind the program's name.
 *
 * Songs stand one behind the other: each text from the start of a record, groups with nothing between. Nothing is
 * written before every song is moved. A song that is refused is named with its place on standard error, status 1; where
 * reading or writing fails the status is 2.
 */
#include <stdint.h>
#include <stdio.h>
#include <stdlib.h>
#include <string.h>

#include "place.h"
#include "tabeshilo.h"

typedef struct {
    uint8_t *byte;
    size_t bytes, room;
} store;

static store input, text, output;
static unsigned songs;

static void fail(const char *what) {
    fprintf(stderr, "tools/groups: %s\n", what);
    exit(2);
}

/* Makes room for so many bytes more. */
static void make_room(store *s, size_t bytes) {
    if (s->room - s->bytes >= bytes) return;
    s->room = 2 * s->room + bytes;
    s->byte = realloc(s->byte, s->room);
    if (!s->byte) fail("there is no memory");
}

static void take_in(void) {
    size_t got;
    do {
        make_room(&input, TAB_TEXT);
        got = fread(input.byte + input.bytes, 1, TAB_TEXT, stdin);
        input.bytes += got;
    } while (got > 0);
    if (ferror(stdin)) fail("reading failed");
}

static void hand_out(void) {
    if (fwrite(output.byte, 1, output.bytes, stdout) != output.bytes || fflush(stdout) != 0) fail("writing failed");
}

/* ---- Text that comes in lines: each line is filled up with blanks to whole records */

static size_t line_end(size_t from) {
    while (from < input.bytes && input.byte[from] != '\n') from++;
    return from;
}

static size_t filled(size_t bytes) { return (bytes + TAB_RECORD - 1) / TAB_RECORD * TAB_RECORD; }

static void lines_to_records(void) {
    for (size_t from = 0, end; from < input.bytes; from = end + 1) {
        end = line_end(from);
        size_t whole = filled(end - from);
        make_room(&text, whole);
        memcpy(text.byte + text.bytes, input.byte + from, end - from);
        memset(text.byte + text.bytes + (end - from), ' ', whole - (end - from));
        text.bytes += whole;
    }
}

/* Says where a byte of the records stands in the lines; one in the fill is told as the character behind its line. */
static void say_place(size_t at) {
    size_t line = 1, from = 0, end = line_end(0), start = 0; /* where the line starts in lines and in records */
    while (at >= start + filled(end - from) && end + 1 < input.bytes) {
        start += filled(end - from);
        from = end + 1;
        end = line_end(from);
        line++;
    }
    size_t left = end - from, in_line = at - start < left ? at - start : left;
    fprintf(stderr, " at line %zu, character %zu", line, in_line + 1);
    if (in_line == left) fprintf(stderr, ": the line ends");
}

/* ---- Refusals */

static void refuse(uint32_t answer) {
    fprintf(stderr, "tools/groups: song %u: %u %s", songs + 1, (unsigned)answer, tab_answer_name(answer));
}

static void refuse_text(uint32_t answer, size_t at, size_t lent) {
    size_t place = at + place_in_text(text.byte + at, lent);
    refuse(answer);
    say_place(place);
    fprintf(stderr, place == at + lent && place < text.bytes ? ": the song is over 65,520 bytes\n" : "\n");
    exit(1);
}

static void refuse_groups(uint32_t answer, size_t at, size_t lent) {
    const char *why;
    size_t place = at + place_in_groups(input.byte + at, lent, &why);
    refuse(answer);
    if (answer == TAB_OUTPUT) fprintf(stderr, ": from byte %zu on, its text is over 65,520 bytes\n", at);
    else if (place == at + lent && place < input.bytes) fprintf(stderr, ": from byte %zu on, it is over 65,520 bytes\n", at);
    else fprintf(stderr, " at byte %zu: %s\n", place, why);
    exit(1);
}

static void refuse_nothing(void) {
    fprintf(stderr, "tools/groups: %d %s: there is no song\n", TAB_END, tab_answer_name(TAB_END));
    exit(1);
}

/* ---- Moving */

static size_t lent_from(size_t at, size_t bytes) { return bytes - at < TAB_TEXT ? bytes - at : TAB_TEXT; }

/* Blank records stand behind the last song alone. */
static int only_blanks_from(size_t at) {
    while (at < text.bytes && text.byte[at] == ' ') at++;
    return at == text.bytes;
}

static void pack(void) {
    lines_to_records();
    for (size_t at = 0; at < text.bytes; songs++) {
        size_t lent = lent_from(at, text.bytes);
        make_room(&output, TAB_TEXT);
        tab_moved m = tab_text_to_groups(text.byte + at, lent, output.byte + output.bytes, TAB_TEXT);
        if (m.answer == TAB_END && only_blanks_from(at)) break;
        if (m.answer == TAB_END) refuse_text(TAB_NOT_A_LIST, at, lent); /* 910 blank records, and more than blanks behind */
        if (m.answer != TAB_DONE) refuse_text(m.answer, at, lent);
        at += m.taken;
        output.bytes += m.written;
    }
}

static void unpack(void) {
    for (size_t at = 0; at < input.bytes; songs++) {
        size_t lent = lent_from(at, input.bytes);
        make_room(&output, TAB_TEXT);
        tab_moved m = tab_groups_to_text(input.byte + at, lent, output.byte + output.bytes, TAB_TEXT);
        if (m.answer != TAB_DONE) refuse_groups(m.answer, at, lent);
        at += m.taken;
        output.bytes += m.written;
    }
}

int main(int words, char **word) {
    (void)word;
    take_in();
    if (words > 1) unpack();
    else pack();
    if (songs == 0) refuse_nothing();
    hand_out();
    return 0;
}
