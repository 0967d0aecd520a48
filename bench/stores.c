/*
 * The stores into the output that a writer makes: how many bytes it stores for each byte that it says it has written,
 * and how often one byte. While a call runs, the output lies on pages that can only be read, so each store faults. The
 * bytes around it are then painted, that one instruction is let through, and what is no longer paint is what it stored.
 * Text and its fill must be stored once, and no other byte at all; groups are counted for information. It is for
 * x86-64 Linux.
 *
 * No byte's paint is what the byte ends up as, so the store that makes it that is always seen. An earlier one is missed
 * if it happens to be the paint; so the paint is another in each call, and 128 or more where text stands.
 */
#define _GNU_SOURCE /* for the names of registers */
#include "cases.h"

#include <signal.h>
#include <stdio.h>
#include <stdlib.h>
#include <string.h>
#include <sys/mman.h>
#include <ucontext.h>

enum { REACH = 64 /* bytes of the widest store */, LONGEST = 15 /* and of the longest instruction */, COPIES = 256 };
enum { TRAP_FLAG = 0x100, BREAKPOINT = 0xcc, PAGE = 4096, MARGIN = 2 * REACH, MOST = 2 * MARGIN + TAB_TEXT, BEFORE = 'Z' };

static uint8_t *pages;                   /* a margin, the output, a margin */
static uint8_t image[MOST];              /* what they hold, without paint */
static uint8_t paint[MOST], plain[MOST]; /* plain: what the same call leaves when nobody watches */
static uint16_t stored[MOST];            /* how often each byte was stored */
static size_t extent;                    /* bytes that are watched, both margins among them */
static const char *name;                 /* of what is counted */

static void must(int holds, const char *what) {
    if (holds) return;
    printf("stores: %s: %s\n", name, what);
    exit(1);
}

/* ---- One store at a time */

static size_t from, to; /* the bytes around the store under way; both 0 if none is */
static greg_t at;       /* its instruction */

/*
 * On a virtual processor a step by the trap flag takes several times as long as a breakpoint. So an instruction that
 * was stepped once is copied, a breakpoint behind it, and the copy is run from then on. It means the same anywhere,
 * since what it addresses is the output.
 */
static struct {
    greg_t at, size;
} copied[COPIES];
static uint8_t (*code)[LONGEST + 1]; /* of the copies */
static int copies, running;          /* running: which copy, or -1 */

static int copy_of(greg_t instruction) {
    for (int i = 0; i < copies; i++)
        if (copied[i].at == instruction) return i;
    return -1;
}

/* A string instruction may repeat. Each turn is a step of its own, but a copy would make all turns at once. */
static int is_string(const uint8_t *byte) {
    while (*byte == 0x66 || *byte == 0xf2 || *byte == 0xf3 || (*byte & 0xf0) == 0x40) byte++;
    return *byte == 0xa4 || *byte == 0xa5 || *byte == 0xaa || *byte == 0xab;
}

static void make_copy(greg_t size) {
    const uint8_t *bytes = (const uint8_t *)at;
    if (code == MAP_FAILED || copies == COPIES || size < 1 || size > LONGEST || is_string(bytes)) return;
    for (greg_t i = 0; i < size; i++) code[copies][i] = bytes[i];
    code[copies][size] = BREAKPOINT;
    copied[copies].at = at;
    copied[copies++].size = size;
}

static void let(int access) {
    size_t first = from / PAGE * PAGE, end = (to + PAGE - 1) / PAGE * PAGE;
    mprotect(pages + first, end - first, access);
}

static void on_fault(int number, siginfo_t *info, void *context) {
    greg_t *registers = ((ucontext_t *)context)->uc_mcontext.gregs;
    size_t place = (size_t)((uint8_t *)info->si_addr - pages);
    if (place >= extent || to != 0) { /* not a store that is watched: it faults once more, and ends the program */
        signal(number, SIG_DFL);
        return;
    }
    from = place < REACH ? 0 : place - REACH;
    to = place + REACH < extent ? place + REACH : extent;
    let(PROT_READ | PROT_WRITE);
    for (size_t i = from; i < to; i++) pages[i] = paint[i];
    at = registers[REG_RIP];
    running = copy_of(at);
    if (running >= 0) registers[REG_RIP] = (greg_t)code[running];
    else registers[REG_EFL] |= TRAP_FLAG;
}

static void on_step(int number, siginfo_t *info, void *context) {
    greg_t *registers = ((ucontext_t *)context)->uc_mcontext.gregs;
    (void)number, (void)info;
    for (size_t i = from; i < to; i++) {
        if (pages[i] != paint[i]) image[i] = pages[i], stored[i]++;
        pages[i] = image[i];
    }
    let(PROT_READ);
    from = to = 0;
    if (running >= 0) {
        registers[REG_RIP] = at + copied[running].size;
    } else {
        registers[REG_EFL] &= ~(greg_t)TRAP_FLAG;
        make_copy(registers[REG_RIP] - at);
    }
}

static void *map(size_t bytes, int access) {
    return mmap(NULL, bytes, access, MAP_PRIVATE | MAP_ANONYMOUS, -1, 0);
}

static void prepare(void) {
    static uint8_t room[65536];
    stack_t stack = {.ss_sp = room, .ss_size = sizeof room};
    struct sigaction fault = {.sa_sigaction = on_fault, .sa_flags = SA_SIGINFO | SA_ONSTACK}, step = fault;
    step.sa_sigaction = on_step;
    pages = map(MOST, PROT_READ | PROT_WRITE);
    code = map(sizeof *code * COPIES, PROT_READ | PROT_WRITE | PROT_EXEC); /* where that is forbidden, all are steps */
    must(pages != MAP_FAILED && sigaltstack(&stack, NULL) == 0, "no memory");
    must(sigaction(SIGSEGV, &fault, NULL) == 0 && sigaction(SIGTRAP, &step, NULL) == 0, "no signals");
    /* neighbours that differ in this are never joined in the kernel, so that changing one takes half the time */
    for (size_t i = 0; i < MOST; i += 2 * PAGE) madvise(pages + i, PAGE, MADV_DONTFORK);
}

/* ---- One call */

static uint8_t *out; /* the output that is lent */
static size_t lent;  /* and its bytes */

static tab_outcome write_out(const uint32_t *t, size_t tn, uint32_t *w, size_t wn, uint32_t h, uint8_t *o, size_t on) {
    (void)o, (void)on;
    return tab_write(t, tn, w, wn, h, out, lent);
}
static tab_outcome groups_out(const uint32_t *t, size_t tn, uint32_t *w, size_t wn, uint32_t h, uint8_t *o, size_t on) {
    (void)o, (void)on;
    return tab_write_groups(t, tn, w, wn, h, out, lent);
}
static tab_moved text_out(const uint8_t *s, size_t sn, uint8_t *o, size_t on) {
    (void)o, (void)on;
    return tab_groups_to_text(s, sn, out, lent);
}
static const calls library = {.write = write_out, .write_groups = groups_out, .to_text = text_out};

static given input;
static left after;

/* Clears the pages and the counts, and lets nobody store into them; `plain` has what they will be. */
static void begin(void) {
    static uint8_t change = 0;
    change = (uint8_t)(0x80 | (change + 1));
    for (size_t i = 0; i < extent; i++) {
        pages[i] = image[i] = BEFORE;
        paint[i] = plain[i] ^ change;
        stored[i] = 0;
    }
    out = pages + MARGIN;
    must(mprotect(pages, extent, PROT_READ) == 0, "no pages that can only be read");
}

static void end(void) { mprotect(pages, extent, PROT_READ | PROT_WRITE); }

typedef struct {
    size_t written, stored, outside; /* bytes; outside: stored, but not where it says it has written */
    size_t wrong;                    /* bytes written and not stored once, or stored and not written */
    unsigned most;                   /* times that one byte was stored */
    char record[TAB_RECORD + 1], times[TAB_RECORD + 1]; /* the record of the first that is wrong, and its counts */
} tally;

static void keep_record(tally *t, size_t place) {
    size_t first = place - (place + TAB_RECORD * PAGE - MARGIN) % TAB_RECORD;
    for (size_t i = 0; i < TAB_RECORD && first + i < extent; i++) {
        t->record[i] = (char)image[first + i];
        t->times[i] = (char)('0' + (stored[first + i] < 9 ? stored[first + i] : 9));
    }
}

static void add(tally *t, size_t written) {
    for (size_t i = 0; i < extent; i++) {
        int is_written = i >= MARGIN && i < MARGIN + written;
        t->stored += stored[i];
        t->outside += is_written ? 0 : stored[i];
        if (stored[i] > t->most) t->most = stored[i];
        if (stored[i] != is_written && t->wrong++ == 0) keep_record(t, i);
    }
    t->written += written;
}

static tab_moved made(enum call call) {
    put_before(&input, &after);
    make_call(&library, call, &input, &after);
    return after.outcome;
}

/* Makes the call with so many bytes lent for its output, first unwatched and then watched. */
static void count(tally *t, enum call call, size_t bytes, uint32_t answer) {
    lent = bytes;
    extent = 2 * MARGIN + bytes;
    memset(plain, BEFORE, extent);
    out = plain + MARGIN;
    tab_moved before = made(call);
    begin();
    tab_moved watched = made(call);
    end();
    must(before.answer == answer, "another answer than it should be");
    must(memcmp(&watched, &before, sizeof before) == 0, "what it says is not the same when it is watched");
    must(memcmp(image, plain, extent) == 0 && memcmp(pages, plain, extent) == 0,
         "what it leaves is not the same when it is watched");
    add(t, call == TO_TEXT ? before.written : before.taken);
}

/* ---- Stores that are known */

static void store(uint8_t *to_here, size_t bytes) {
    typedef uint64_t wide __attribute__((vector_size(16)));
    uint64_t eight = 0x3736353433323130;
    if (bytes == 8) {
        __asm__ volatile("movq %1, (%0)" : : "r"(to_here), "r"(eight) : "memory");
    } else if (bytes == 16) {
        __asm__ volatile("movups %1, (%0)" : : "r"(to_here), "x"((wide){eight, eight}) : "memory");
    } else {
        __asm__ volatile("rep stosb" : "+D"(to_here), "+c"(bytes) : "a"('0') : "memory");
    }
}

/* Stores of every kind, one over the other and across pages, each of them more than once: are they all seen? */
static void count_known(void) {
    static const struct {
        size_t at, bytes;
    } known[] = {{200, 1}, {200, 1}, {205, 8}, {209, 8}, {210, 16}, {224, 16}, {240, 150}, {242, 7}, {PAGE - 3, 8},
                 {PAGE - 9, 16}, {PAGE - 15, 150}};
    size_t kinds = sizeof known / sizeof known[0], unlike = 0;
    name = "stores that are known";
    extent = 2 * PAGE;
    begin();
    for (size_t k = 0; k < kinds; k++) store(pages + known[k].at, known[k].bytes);
    end();
    for (size_t i = 0; i < extent; i++) {
        unsigned times = 0;
        for (size_t k = 0; k < kinds; k++) times += i - known[k].at < known[k].bytes;
        unlike += stored[i] != times;
    }
    must(unlike == 0, "they are not all seen one by one, so this machine cannot count");
}

/* ---- Small texts */

/* A list whose text has `size` characters, its atoms `digits` digits as far as that goes. */
static void small_text(size_t size, size_t digits) {
    size_t end_at = size - 1, place = 0;
    memset(input.text, ' ', 2 * TAB_RECORD);
    input.text[place++] = '(';
    while (place < end_at) {
        size_t left_over = end_at - place, take = left_over < digits ? left_over : digits;
        if (left_over == take + 1) take = digits == 1 ? 2 : take - 1; /* no room for a comma and a digit behind it */
        for (; take > 0; take--, place++) input.text[place] = (uint8_t)('1' + place % 3);
        if (place < end_at) input.text[place++] = ',';
    }
    input.text[end_at] = ')';
    input.bytes = (size + TAB_RECORD - 1) / TAB_RECORD * TAB_RECORD;
}

/* With a byte too few, just enough, and if asked for two records more: near its end room may be used in another way. */
static void count_rooms(tally *t, enum call call, const uint8_t *text, size_t bytes, int more) {
    count(t, call, bytes - 1, TAB_OUTPUT);
    count(t, call, bytes, TAB_DONE);
    if (more) count(t, call, bytes + 2 * TAB_RECORD, TAB_DONE);
    must(memcmp(plain + MARGIN, text, bytes) == 0, "another text than it should be");
}

/* Every fill, 0 to 71 blanks, with atoms of every number of digits. */
static void count_small(tally *t) {
    static uint8_t text[2 * TAB_RECORD];
    for (size_t size = 2; size <= TAB_RECORD + 1; size++)
        for (size_t digits = 1; digits <= 11; digits++) {
            small_text(size, digits);
            size_t bytes = input.bytes, words = TAB_TABLE_WORDS(TAB_RECORD);
            memcpy(text, input.text, bytes);
            must(tab_set_up(input.table, words, TAB_RECORD) == TAB_DONE &&
                     tab_read(input.table, words, after.work, WORK, 0, text, bytes).answer == TAB_DONE,
                 "no table");
            input.bytes = tab_text_to_groups(text, bytes, input.text, TAB_TEXT).written;
            count_rooms(t, WRITE, text, bytes, digits == 1 + size % 11);
            count_rooms(t, TO_TEXT, text, bytes, digits == 1 + size % 11);
        }
}

/* ---- All of them */

static size_t wrong, texts; /* bytes of text that are wrong; bytes of text and fill */

static void show(const tally *t, int is_text) {
    char each[16] = "-";
    if (t->written > 0) snprintf(each, sizeof each, "%.2f", (double)t->stored / (double)t->written);
    printf("%-40s %9zu %9zu %9s %6u %9zu%s\n", name, t->written, t->stored, each, t->most, t->outside,
           is_text && t->wrong > 0 ? "  NOT ONCE, first in this record:" : "");
    if (is_text && t->wrong > 0) printf("    %s\n    %s\n", t->record, t->times);
    fflush(stdout);
    if (is_text) wrong += t->wrong, texts += t->written;
}

int main(void) {
    tally small = {0};
    name = "getting ready";
    prepare();
    count_known();
    printf("%-40s %9s %9s %9s %6s %9s\n", "case (bytes)", "written", "stored", "per byte", "most", "outside");
    for (int i = 0; i < number_of_cases; i++) {
        enum call call = cases[i].call;
        tally t = {0};
        if (call != WRITE && call != WRITE_GROUPS && call != TO_TEXT) continue;
        name = cases[i].name;
        cases[i].make(&input, cases[i].cells);
        count(&t, call, TAB_TEXT, cases[i].answer);
        show(&t, call != WRITE_GROUPS);
    }
    name = "small texts, 0-71 blanks, 1-11 digits";
    count_small(&small);
    show(&small, 1);
    if (wrong > 0) printf("stores: %zu bytes are written and not stored once, or stored and not written\n", wrong);
    else printf("stores: ok, %zu bytes of text and fill, each stored once, and no other byte\n", texts);
    return wrong > 0;
}
