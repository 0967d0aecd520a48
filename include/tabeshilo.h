/*
 * tabeshilo.h: the C side of Tabeshilo, a list engine after Collins' SAC-1 report.
 *
 * Link with libtabeshilo.a (tools/library makes it and prints its path; it is for x86-64 Linux, and
 * docs/PORTING.md says how to have it for another processor). The archive asks for nothing but memcpy and memset.
 *
 *
 * LENT MEMORY
 *
 * The engine has no memory of its own: no static data, no heap, no file. All it works on is lent by the caller for
 * the length of one call, and nothing is kept after the call returns. So a table may be moved, copied or stored
 * between calls as plain words, and calls on different tables may run at the same time in different threads. Calls
 * that are lent the same writable memory must follow each other.
 *
 * Memory is lent as a pointer and a length. Lengths are counted in elements of the pointer's type: 32-bit words for
 * uint32_t, bytes for uint8_t. A length of 0 may go with a null pointer. Every other pointer must be valid for the
 * whole length, words must be aligned as uint32_t asks, and two runs that are lent to one call must not overlap.
 * The stack must have as many bytes left as stand beside the call; tab_read_groups asks for most. That is all that a
 * caller has to see to. Within these terms no content and no length, not even of a damaged table, makes a call fault,
 * run on without end, or touch memory that was not lent.
 *
 * Every call is fixed by what is lent to it: the same input gives the same answer and the same words.
 *
 *     static uint32_t table[TAB_TABLE_WORDS(100)], work[TAB_WORK_WORDS(100)];
 *     static uint8_t out[144];
 *     uint32_t script[] = {TAB_PFA, 0, 0, 5, TAB_PFA, 0, 0, 8, TAB_LENGTH, 0, 0, 0}, results[6];
 *
 *     tab_set_up(table, TAB_TABLE_WORDS(100), 100);
 *     tab_outcome o = tab_run(table, TAB_TABLE_WORDS(100), work, TAB_WORK_WORDS(100), script, 12, results, 6);
 *     // o.answer is TAB_DONE, o.count is 3, results[4] is TAB_IS_NUMBER, results[5] is 2
 *     o = tab_write(table, TAB_TABLE_WORDS(100), work, TAB_WORK_WORDS(100), 0, out, sizeof out);
 *     // o.answer is TAB_DONE, o.count is 72, out starts with "(10,5)" and 66 blanks
 *
 *
 * LISTS
 *
 * Atoms are the numbers of 32 bits, 0 to 2^32 - 1. A list has elements in a fixed order, and each of them is an atom or
 * again a list. The list with no element is the null list. A list's own elements, without what is in those that are
 * lists, are its main level, and their number is its length. Its extent is the number of cells that it takes up
 * unshared: one for each of its elements, and the extent of each element that is a list.
 *
 *
 * THE TABLE
 *
 * A pool of N cells, 1 <= N <= TAB_CELLS, is a table of exactly TAB_TABLE_WORDS(N) words in the machine's byte order:
 *
 *   word 0                           N
 *   word 1                           the cell that the free chain starts with
 *   words 2 to 65                    holders 0 to 63: each names the first cell of a list, or is 0 for the null list
 *   words 66 + 4(c-1) and 3 more     cell c, for c from 1 to N: its words T, E, R and S
 *
 * T, the type, is 0 if the element E is an atom, 1 if E names a list. S, the successor, names the next cell of the same
 * list. 0 stands for the null list, and for no further cell. R, the count, is 0 in a free cell; in a live cell it says
 * how often the cell is named: by holders, and by S and list elements of live cells. Free cells are chained by S from
 * word 1; their T and E mean nothing and stay as they were.
 *
 * A caller may look at all of this. A caller who changes it must leave the table sound: going by S from word 1 one
 * meets each free cell once, meets no other, and comes to 0; T is 0 or 1 in live cells; a holder, and an S or a list
 * element of a live cell, that is not 0 names a live cell; every R is right; and no way along S and list elements
 * leads from a live cell back to it. tab_run and the calls that read and write look for this and otherwise answer
 * TAB_UNSOUND and leave the table alone. Some answers come before: TAB_TABLE_SIZE and TAB_WORK_SPACE in all of them,
 * then TAB_SCRIPT and TAB_RESULTS in tab_run, TAB_HOLDER, TAB_TEXT_SIZE and TAB_END where a list is read, TAB_HOLDER
 * where one is written.
 *
 *
 * THE WORK SPACE
 *
 * A call on a table of N cells is lent TAB_WORK_WORDS(N) = 2N words or more to work in. Their content does not matter.
 * After the answers TAB_TABLE_SIZE to TAB_RESULTS, TAB_TEXT_SIZE and TAB_END, and after TAB_HOLDER from any call but
 * tab_run, the work space is untouched. Any other answer, TAB_DONE included, leaves the first 2N words cleared to 0 and
 * what is lent behind them as it was.
 *
 *
 * TEXT
 *
 * ASCII, in records of 72 bytes. A list is written as its elements between "(" and ")", with "," between two of them;
 * an atom as at most 11 octal digits, at least one, of a value below 2^32. The first byte is the list's "(". Where a
 * record is full the text goes on in the next, even inside an atom. Blanks (0x20) stand nowhere but behind the last
 * ")", where they fill its record; the records behind that one may hold anything. Text has at most TAB_TEXT bytes and
 * lists at most TAB_LEVELS levels, the outermost counted.
 *
 * A text of 0 bytes, or of blanks alone, is TAB_END. So a file may be filled up with blank records: a loop that goes on
 * by each read's count stops there (examples/padded.c). A blank first byte with anything but blanks behind it, in its
 * record or in a later one, is TAB_NOT_A_LIST.
 *
 * Text does not keep sharing: a list that comes four times is written four times, and read back it takes its cells four
 * times. The song of examples/chorus.session has 14 cells, its chorus of 3 once among them; its text of 64 characters,
 * read into a fresh pool, takes 23. To keep the sharing, keep the table's words.
 *
 *
 * GROUPS
 *
 * The second form in which a list is stored takes fewer bytes: numbers below 2^33, one after the other. An even number
 * stands for an atom and is twice its value. An odd number begins a list: it is one more than twice the list's length,
 * and the elements, so many of them, come behind it. A number is put down from its low end, seven bits to a byte; each
 * such byte is a group, and 0x80 in it says that the number has a further one. So a last byte of 0 is right for the
 * number 0 alone; behind other groups it would be one more than needed.
 *
 *   ()               1
 *   (200)            3, 128, 2              octal 200 is 128 and its number 256, which is 0 + 2 * 128
 *   ((3),1,(1,2))    7, 3, 6, 2, 5, 2, 4
 *
 * Atoms up to 63 take one byte, up to 8,191 two, up to 1,048,575 three, up to 2^27 - 1 four, all others five. A list's
 * own number takes as much as an atom whose value is the list's length, and its elements come on top. There is no fill
 * and no sign of an end: a list says itself where it ends, and the next may start at the byte behind it. Groups have at
 * most TAB_TEXT bytes and lists at most TAB_LEVELS levels, as text has, and they keep no sharing either. Both forms of
 * a list make the same cells in the same order.
 *
 *
 * COST
 *
 * tab_run and the calls that read and write look over the whole table once before they do anything: 8 to 18
 * microseconds at 4,000 cells, 0.2 at 64. So give tab_run many operations at once; each then costs some 20
 * nanoseconds, but for those that walk: INV, CINV, CONC and LENGTH along the main level, ERASE through what it frees.
 * The worst script that was measured, 4,096 times INV of 4,000 cells, takes 92 milliseconds. Beside each call stand
 * the times of its longest measured cases and the most stack that any measured case used. The times are of one core of
 * two servers, an Arm and an x86-64 (docs/BENCH.md): measure on your own processor.
 */
#ifndef TABESHILO_H
#define TABESHILO_H

#include <stddef.h>
#include <stdint.h>

#ifdef __cplusplus
extern "C" {
#endif

/* The version of this header, major * 10000 + minor * 100 + patch; tab_version() tells that of the library. */
#define TAB_VERSION 10200

/* What the library assumes of the machine that it is for. Where one of these fails, nothing here compiles. */
#if defined(__BYTE_ORDER__) && defined(__ORDER_LITTLE_ENDIAN__) && __BYTE_ORDER__ != __ORDER_LITTLE_ENDIAN__
#error "tabeshilo: the library is for processors that store the low byte first"
#endif
#if defined(__cplusplus) && __cplusplus >= 201103L
#define TAB_ASSUMES(name, claim) static_assert(claim, "tabeshilo assumes: " #name)
#elif defined(__STDC_VERSION__) && __STDC_VERSION__ >= 201112L
#define TAB_ASSUMES(name, claim) _Static_assert(claim, "tabeshilo assumes: " #name)
#else
#define TAB_ASSUMES(name, claim) typedef char tab_assumes_##name[(claim) ? 1 : -1]
#endif
TAB_ASSUMES(a_byte_of_8_bits, (unsigned char)~0u == 255);
TAB_ASSUMES(a_size_t_of_64_bits, sizeof(size_t) == 8);
TAB_ASSUMES(pointers_of_64_bits, sizeof(void *) == 8);
TAB_ASSUMES(words_of_32_bits, sizeof(uint32_t) == 4);

/* Limits. */
enum {
    TAB_CELLS = 4000,      /* most cells of a pool */
    TAB_HOLDERS = 64,      /* holders of a table; they have the numbers 0 to 63 */
    TAB_OPERATIONS = 4096, /* most operations of a script */
    TAB_RECORD = 72,       /* bytes of a text record */
    TAB_TEXT = 65520,      /* most bytes of a text, 910 records, and of groups */
    TAB_LEVELS = 200       /* most levels of a list in a text or in groups */
};

/* Words of a table of n cells, and the words to lend as its work space; n is 1 to TAB_CELLS. */
#define TAB_TABLE_WORDS(n) (2 + (size_t)TAB_HOLDERS + 4 * (size_t)(n))
#define TAB_WORK_WORDS(n) (2 * (size_t)(n))

/* Where in a table its words are: the first free cell; holder h, 0 to 63; and the four words of cell c, 1 to N. */
#define TAB_FREE_AT ((size_t)1)
#define TAB_HOLDER_AT(h) (2 + (size_t)(h))
#define TAB_TYPE_AT(c) (2 + (size_t)TAB_HOLDERS + 4 * ((size_t)(c) - 1))
#define TAB_ELEMENT_AT(c) (TAB_TYPE_AT(c) + 1)
#define TAB_COUNT_AT(c) (TAB_TYPE_AT(c) + 2)
#define TAB_SUCCESSOR_AT(c) (TAB_TYPE_AT(c) + 3)

/* Words of a script of n operations, and the words to lend for its results; n is 0 to TAB_OPERATIONS. */
#define TAB_SCRIPT_WORDS(n) (4 * (size_t)(n))
#define TAB_RESULT_WORDS(n) (2 * (size_t)(n))

/*
 * Answers. Every call answers with one of these. Beside each stands when it is given; a call gives the first that
 * holds, in the order that its own comment names.
 */
enum {
    TAB_DONE = 0,         /* the call did what it was asked to do */
    TAB_TABLE_SIZE = 1,   /* N is not 1 to 4,000, or the table has not 66 + 4N words */
    TAB_WORK_SPACE = 2,   /* fewer than 2N words of work space were lent */
    TAB_SCRIPT = 3,       /* the script's length is no multiple of 4, or it has over 4,096 operations */
    TAB_RESULTS = 4,      /* fewer than two result words per operation were lent */
    TAB_UNSOUND = 5,      /* the table is not sound */
    TAB_CODE = 6,         /* an operation's code is not 1 to 11 */
    TAB_HOLDER = 7,       /* a holder that is used has a number over 63 */
    TAB_SAME = 8,         /* a = b in an operation that uses both */
    TAB_NULL = 9,         /* DECAP, ADV or FIRST of a null list */
    TAB_OCCUPIED = 10,    /* a holder that is to get a list has one: b of DECAP, ADV, BORROW, CINV, or to read into */
    TAB_SHARED = 11,      /* DECAP: the first cell has a count over 1; INV: some cell of a's main level has;
                             CONC: the same, when b is not null */
    TAB_NO_ROOM = 12,     /* too few free cells: PFA and PFL need 1, CINV the length of a, reading the list's extent */
    TAB_TEXT_SIZE = 13,   /* text or groups of over 65,520 bytes; a text's length is no multiple of 72 */
    TAB_END = 14,         /* text or groups of 0 bytes; a text of whole records of blanks and nothing else */
    TAB_NOT_A_LIST = 15,  /* a byte that may not stand where it is, or a text that ends before its list does */
    TAB_ATOM = 16,        /* an atom that goes on to a twelfth digit, or whose eleventh takes it past 2^32 - 1 */
    TAB_DEEP = 17,        /* a "(" of level 201 where a "(" may stand; in groups the number of a list of level 201 */
    TAB_OUTPUT = 18,      /* the output cannot take all characters, or all groups, of the list */
    TAB_GROUPS = 19       /* groups that end before their list does, a number in more groups than needed or of 2^33 and
                             more, or an atom where the list should start */
};

/*
 * What a call gives: its answer, and a number that the call's comment names. The number is 0 after every answer but
 * TAB_DONE; tab_run alone gives one beside the answers 6 to 12 too.
 */
typedef struct {
    uint32_t answer;
    uint32_t count;
} tab_outcome;

/* It comes back in one register of 64 bits, as the calling conventions of x86-64 and aarch64 have it. */
TAB_ASSUMES(an_outcome_of_two_words, sizeof(tab_outcome) == 8 && offsetof(tab_outcome, count) == 4);

/* What a move from one stored form to the other gives: its answer, and two numbers, 0 after any but TAB_DONE. */
typedef struct {
    uint32_t answer;
    uint32_t taken;   /* bytes of the input that the list took */
    uint32_t written; /* bytes of the output that were written */
} tab_moved;

TAB_ASSUMES(a_move_of_three_words,
            sizeof(tab_moved) == 12 && offsetof(tab_moved, taken) == 4 && offsetof(tab_moved, written) == 8);

/* The version of the library: TAB_VERSION, if header and library belong together. */
uint32_t tab_version(void);

/*
 * Sets up a pool: N = cells, all cells free and chained in order from cell 1, all holders null.
 *
 * table, words   the words to set up; what they hold before does not matter
 * cells          N
 *
 * Returns TAB_DONE, and every word of the table is set. Or TAB_TABLE_SIZE, if N is not 1 to TAB_CELLS or
 * words != TAB_TABLE_WORDS(N), and no word is changed.
 *
 * Cost: writes each word once, 2 to 4 microseconds at 4,000 cells. Stack: 48 bytes.
 */
uint32_t tab_set_up(uint32_t *table, size_t words, uint32_t cells);

/*
 * The operations of a script, by code. a and b are holder numbers here, and "list a" is the list that holder a names.
 * PFA uses a and v; ERASE, INV, FIRST and LENGTH use a alone; all others use a and b.
 */
enum {
    TAB_PFA = 1,    /* puts atom v in front of list a */
    TAB_PFL = 2,    /* puts list b in front of list a, as one element; holder b is null then */
    TAB_DECAP = 3,  /* takes the first element off list a and frees its cell; if it is a list, holder b gets it */
    TAB_ADV = 4,    /* the same for a and b alone: whoever else holds the old list keeps it whole */
    TAB_BORROW = 5, /* holder b gets list a too, in the same cells */
    TAB_ERASE = 6,  /* empties holder a; cells that nobody holds any more are freed */
    TAB_INV = 7,    /* reverses list a's main level in place; no cell is taken or freed */
    TAB_CINV = 8,   /* holder b gets a reversed copy of list a's main level; elements that are lists are shared */
    TAB_CONC = 9,   /* makes list b the end of list a; no cell is taken or freed, and holder b is null then */
    TAB_FIRST = 10, /* tells the first element of list a */
    TAB_LENGTH = 11 /* tells the number of elements of list a */
};

/* The kind word of an operation's result; its value word is named beside it. */
enum {
    TAB_IS_ATOM = 0,   /* value: the atom (DECAP, ADV, FIRST) */
    TAB_IS_LIST = 1,   /* value: 0 (DECAP, ADV, FIRST) */
    TAB_IS_NUMBER = 2, /* value: LENGTH: the length; ERASE: how many cells were freed */
    TAB_IS_NOTHING = 3 /* value: 0 (the rest) */
};

/*
 * Runs a script: its operations one after the other, up to the first that is refused.
 *
 * table, table_words       the pool, changed by the operations
 * work, work_words         work space
 * script, script_words     for each operation four words: its code, a, b and v, of which those without a use may hold
 *                          anything
 * results, results_words   two words for each operation done: kind and value
 *
 * Answers TAB_TABLE_SIZE, TAB_WORK_SPACE, TAB_SCRIPT, TAB_RESULTS and TAB_UNSOUND in this order, before anything is
 * done; the table and the results are unchanged then. After that each operation in turn may be refused by TAB_CODE,
 * TAB_HOLDER, TAB_SAME, TAB_NULL, TAB_OCCUPIED, TAB_SHARED or TAB_NO_ROOM, in this order: it changes nothing, and the
 * run ends there with what the operations before it did. Otherwise TAB_DONE.
 *
 * count: the operations done. Result words from 2 * count on are unchanged, and so is the script.
 *
 * Cost: the table once, and the operations. 4,096 mixed operations on 4,000 cells take 75 to 110 microseconds, ERASE of
 * 4,000 cells 15 to 17. Stack: 192 bytes.
 */
tab_outcome tab_run(uint32_t *table, size_t table_words, uint32_t *work, size_t work_words, const uint32_t *script,
                    size_t script_words, uint32_t *results, size_t results_words);

/*
 * Reads the list at the start of a text into a holder that is null. From left to right, each element takes the head of
 * the free chain where it begins.
 *
 * table, table_words   the pool
 * work, work_words     work space
 * holder               0 to 63
 * text, bytes          the text, unchanged
 *
 * Answers in this order: TAB_TABLE_SIZE, TAB_WORK_SPACE, TAB_HOLDER, TAB_TEXT_SIZE, TAB_END, TAB_UNSOUND,
 * TAB_OCCUPIED, the earliest fault in the text (TAB_NOT_A_LIST, TAB_ATOM or TAB_DEEP), TAB_NO_ROOM, TAB_DONE. After
 * any but TAB_DONE the table is unchanged.
 *
 * count: after TAB_DONE the bytes taken, a multiple of 72; the next list, if any, starts at text + count, and has the
 * bytes that are left. Where no byte is left, or blanks alone, the call for it answers TAB_END.
 *
 * Cost: the table once, the list's text twice. 65,520 bytes take 63 to 121 microseconds. A text that starts
 * with a blank is looked through for another byte; one that starts with "(" is not. Stack: 1,136 bytes.
 */
tab_outcome tab_read(uint32_t *table, size_t table_words, uint32_t *work, size_t work_words, uint32_t holder,
                     const uint8_t *text, size_t bytes);

/*
 * Writes a holder's list as text: atoms without leading zeros (zero is "0"), the last record filled with blanks.
 *
 * table, table_words   the pool, unchanged
 * work, work_words     work space
 * holder               0 to 63
 * out, room            where the text goes; of it the largest multiple of 72 bytes up to TAB_TEXT can be used
 *
 * Answers in this order: TAB_TABLE_SIZE, TAB_WORK_SPACE, TAB_HOLDER, TAB_UNSOUND, then whichever comes at the earlier
 * character of the text: TAB_DEEP (a "(" of level 201) or TAB_OUTPUT (a character behind the usable output), TAB_DEEP
 * if both are at the same; else TAB_DONE. After any but TAB_DONE the output is unchanged.
 *
 * count: after TAB_DONE the bytes written, a multiple of 72 that is at least 72. Output from there on is unchanged.
 *
 * Cost: the table once, the list twice. 65,520 bytes take 182 to 187 microseconds. Stack: 1,824 bytes.
 */
tab_outcome tab_write(const uint32_t *table, size_t table_words, uint32_t *work, size_t work_words, uint32_t holder,
                      uint8_t *out, size_t room);

/*
 * Checks that a text starts with a list, and changes nothing. It needs no table and sets no limit to the list's
 * extent.
 *
 * Answers TAB_TEXT_SIZE, TAB_END, the earliest of TAB_NOT_A_LIST, TAB_ATOM and TAB_DEEP, or TAB_DONE.
 *
 * count: after TAB_DONE the bytes taken, as tab_read would take them.
 *
 * Cost: the list's text once. 65,520 bytes take 27 to 109 microseconds. A text that starts with a blank
 * costs its blanks up to the first other byte. Stack: 112 bytes.
 */
tab_outcome tab_check(const uint8_t *text, size_t bytes);

/*
 * Tells where in a text the records after its first list begin, and changes nothing: the next list, if any, starts at
 * text + tab_rest(text, bytes) and has the bytes that are left.
 *
 * Returns the bytes that tab_check counts, where it answers TAB_DONE and a byte behind them is no blank; blank records
 * in front of that byte belong to the rest. Otherwise there is no rest, and bytes is returned: where only blanks are
 * left behind the list, and where tab_check refuses.
 *
 * Cost: as tab_check, and the blanks behind the list's records up to the first other byte. Stack: 144 bytes.
 */
size_t tab_rest(const uint8_t *text, size_t bytes);

/*
 * Reads the list at the start of groups into a holder that is null, as tab_read does from text: a list takes the same
 * cells in the same order from either form.
 *
 * table, words       the pool
 * work, work_words   work space
 * holder             0 to 63
 * groups, bytes      the groups, unchanged; bytes behind the list are not looked at
 *
 * Answers in this order: TAB_TABLE_SIZE, TAB_WORK_SPACE, TAB_HOLDER, TAB_TEXT_SIZE (over TAB_TEXT bytes), TAB_END (0
 * bytes), TAB_UNSOUND, TAB_OCCUPIED, the fault that comes first along the bytes (TAB_GROUPS, or TAB_DEEP at the number
 * of a list of level 201, the null list's too), TAB_NO_ROOM, TAB_DONE. After any but TAB_DONE the table is unchanged.
 *
 * A list may say that it has more elements than there are bytes: that alone is no fault, and what stands behind it is
 * read until a fault is met or the bytes end. The work is bounded by the bytes, never by such a number.
 *
 * count: after TAB_DONE the bytes taken; the next list, if any, starts at groups + count.
 *
 * Cost: the table once, and linear in the bytes. 65,473 bytes of lists 199 levels deep take 224
 * microseconds. Stack: 39,428 bytes at 200 levels.
 */
tab_outcome tab_read_groups(uint32_t *table, size_t words, uint32_t *work, size_t work_words, uint32_t holder,
                            const uint8_t *groups, size_t bytes);

/*
 * Writes a holder's list as groups.
 *
 * table, words       the pool, unchanged
 * work, work_words   work space
 * holder             0 to 63
 * out, room          where the groups go; of it up to TAB_TEXT bytes can be used
 *
 * Answers in this order: TAB_TABLE_SIZE, TAB_WORK_SPACE, TAB_HOLDER, TAB_UNSOUND, then whichever comes at the earlier
 * number: TAB_DEEP (a list of level 201) or TAB_OUTPUT (a number of which some byte lies behind the usable output),
 * TAB_DEEP if both are at the same; else TAB_DONE. After any but TAB_DONE the output is unchanged.
 *
 * count: after TAB_DONE the bytes written, at least 1. Output from there on is unchanged.
 *
 * Cost: the table once, and linear in the bytes. 32,793 bytes take 206 microseconds. Stack: 1,824
 * bytes.
 */
tab_outcome tab_write_groups(const uint32_t *table, size_t words, uint32_t *work, size_t work_words, uint32_t holder,
                             uint8_t *out, size_t room);

/*
 * Moves the list at the start of a text to groups. It needs no table and no work space, and sets no limit to the list's
 * extent.
 *
 * text, bytes   the text, unchanged; records behind the list's last are not looked at
 * out, room     where the groups go; of it up to TAB_TEXT bytes can be used
 *
 * Answers TAB_TEXT_SIZE, TAB_END, the earliest of TAB_NOT_A_LIST, TAB_ATOM and TAB_DEEP, then TAB_OUTPUT, or TAB_DONE.
 * After any but TAB_DONE the output is unchanged.
 *
 * taken: the bytes that tab_check counts, a multiple of 72. written: at least 1. Output from there on is unchanged.
 *
 * Cost: linear in the text's bytes. 65,520 bytes take 75 to 256 microseconds. Stack: 960 bytes.
 */
tab_moved tab_text_to_groups(const uint8_t *text, size_t bytes, uint8_t *out, size_t room);

/*
 * Moves the list at the start of groups to text, as tab_write would write it: no leading zeros, the last record filled
 * with blanks. It needs no table and no work space, and sets no limit to the list's extent.
 *
 * groups, bytes   the groups, unchanged; bytes behind the list are not looked at
 * out, room       where the text goes; of it the largest multiple of 72 bytes up to TAB_TEXT can be used
 *
 * Answers TAB_TEXT_SIZE (over TAB_TEXT bytes), TAB_END (0 bytes), the earlier of TAB_GROUPS and TAB_DEEP, then
 * TAB_OUTPUT, or TAB_DONE. After any but TAB_DONE the output is unchanged.
 *
 * taken: the bytes of the list's groups. written: a multiple of 72 that is at least 72. Output from there on is
 * unchanged.
 *
 * Cost: linear in the bytes of both forms. 65,520 bytes of text take 38 to 202 microseconds.
 * Stack: 960 bytes.
 *
 * Groups that are moved to text and back are the same bytes, those that were taken; text that is moved to groups and
 * back is the same but for leading zeros, which are gone, and its fill, which is new.
 */
tab_moved tab_groups_to_text(const uint8_t *groups, size_t bytes, uint8_t *out, size_t room);

/*
 * Helpers that are in this header alone; the archive has no name for them.
 *
 * The free cells of a table, met along the free chain; of a table that is not sound the cells up to where the chain
 * leaves the table, N at most; 0 if the table has not TAB_TABLE_WORDS(N) words.
 */
static inline uint32_t tab_free_cells(const uint32_t *table, size_t words) {
    uint32_t met = 0, cell;
    if (words < TAB_TABLE_WORDS(0) || words != TAB_TABLE_WORDS(table[0])) return 0;
    for (cell = table[TAB_FREE_AT]; cell != 0 && cell <= table[0] && met < table[0]; cell = table[TAB_SUCCESSOR_AT(cell)]) met++;
    return met;
}

/* An answer's name, as the rules have it: "DONE", "TABLE SIZE" and so on; "unknown" for a number that is no answer. */
static inline const char *tab_answer_name(uint32_t answer) {
    static const char *const name[] = {"DONE",     "TABLE SIZE", "WORK SPACE", "SCRIPT",     "RESULTS", "UNSOUND", "CODE",
                                       "HOLDER",   "SAME",       "NULL",       "OCCUPIED",   "SHARED",  "NO ROOM", "TEXT SIZE",
                                       "END",      "NOT A LIST", "ATOM",       "DEEP",       "OUTPUT",  "GROUPS"};
    return answer < sizeof name / sizeof name[0] ? name[answer] : "unknown";
}

#ifdef __cplusplus
}
#endif

#endif
