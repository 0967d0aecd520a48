#include "lent.h"

#include <stdio.h>
#include <stdlib.h>
#include <string.h>
#include <sys/mman.h>

#include "random.h"

enum { PAGE = 65536, GUARD = 64 }; /* PAGE: a multiple of the page size on every machine */

static uint8_t guard_bytes[GUARD];

static void fail(const char *what) {
    printf("tests: %s\n", what);
    exit(2);
}

void lent_make(lent *l, const char *name, size_t unit, size_t most) {
    size_t bytes = (most * unit + GUARD + PAGE - 1) / PAGE * PAGE;
    uint8_t *all = mmap(NULL, bytes + 2 * PAGE, PROT_READ | PROT_WRITE, MAP_PRIVATE | MAP_ANONYMOUS, -1, 0);
    if (all == MAP_FAILED) fail("no memory");
    if (mprotect(all, PAGE, PROT_NONE) != 0 || mprotect(all + PAGE + bytes, PAGE, PROT_NONE) != 0)
        fail("no guard pages");
    *l = (lent){name, unit, most * unit, all + PAGE, bytes, malloc(most * unit + 8), malloc(most * unit + 8), NULL,
                0,    0};
    if (!l->own || !l->before) fail("no memory");
    for (size_t i = 0; i < GUARD; i++) guard_bytes[i] = (uint8_t)(0xA5 ^ (i * 37));
}

static uint8_t *place(const lent *l) { return l->at_end ? l->pages + l->pages_bytes - l->bytes : l->pages; }

static uint8_t *guard(const lent *l) { return l->at_end ? place(l) - GUARD : l->pages + l->bytes; }

void lend(lent *l, size_t elements) {
    l->bytes = elements * l->unit;
    if (l->bytes > l->room) fail("lent too much");
    l->at_end = chance(50);
    uint8_t *to = place(l), *open = guard(l);
    memcpy(to, l->own, l->bytes);
    memcpy(l->before, l->own, l->bytes);
    memcpy(open, guard_bytes, GUARD);
    l->at = l->bytes == 0 && chance(50) ? NULL : to;
}

int lent_differs(const lent *l) {
    const uint8_t *got = place(l), *open = guard(l);
    if (memcmp(open, guard_bytes, GUARD) != 0) {
        printf("  %s: written %s what was lent\n", l->name, l->at_end ? "before" : "behind");
        return 1;
    }
    if (memcmp(got, l->own, l->bytes) == 0) return 0;
    size_t i = 0;
    while (got[i] == l->own[i]) i++;
    i /= l->unit;
    if (l->unit == 1) {
        printf("  %s: byte %zu is %u, should be %u\n", l->name, i, got[i], l->own[i]);
    } else {
        uint32_t is, should;
        memcpy(&is, got + 4 * i, 4);
        memcpy(&should, l->own + 4 * i, 4);
        printf("  %s: word %zu is %u, should be %u\n", l->name, i, is, should);
    }
    return 1;
}

void lent_show(const lent *l, size_t most) {
    size_t elements = l->bytes / l->unit, shown = elements < most ? elements : most;
    printf("  %s, %zu %s:", l->name, elements, l->unit == 1 ? "bytes" : "words");
    if (l->unit == 1) {
        printf(" \"");
        for (size_t i = 0; i < shown; i++) {
            uint8_t b = l->before[i];
            if (b >= ' ' && b < 127 && b != '\\' && b != '"') printf("%c", b);
            else printf("\\x%02x", b);
        }
        printf("\"");
    } else {
        for (size_t i = 0; i < shown; i++) {
            uint32_t word;
            memcpy(&word, l->before + 4 * i, 4);
            printf(" %u", word);
        }
    }
    printf("%s\n", shown < elements ? " .." : "");
}
