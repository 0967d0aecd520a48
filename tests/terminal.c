/*
 * Types at a program as a person would: terminal PROGRAM WORD... opens a pseudo-terminal, starts the program on it, and
 * types the lines of its own standard input, each after the answer to the one before has come; then Ctrl-D. What the
 * terminal shows, typed lines among it, goes to standard output without carriage returns. Status: the program's, or
 * NO_TERMINAL where none can be opened.
 */
#define _GNU_SOURCE
#include <fcntl.h>
#include <stdio.h>
#include <stdlib.h>
#include <string.h>
#include <sys/wait.h>
#include <unistd.h>

enum { NO_TERMINAL = 77, SECONDS = 60, MOST = 1 << 16 };

static char shown[MOST];
static size_t count;

/* One more byte that the terminal shows; 0 at its end. */
static int look(int terminal) {
    char byte;
    if (count + 1 >= sizeof shown || read(terminal, &byte, 1) != 1) return 0;
    if (byte != '\r') shown[count++] = byte;
    return 1;
}

/* Waits for a whole line that starts with these characters, from a place on. */
static int wait_for(int terminal, size_t from, const char *start) {
    size_t line = from, length = strlen(start);
    for (;;) {
        if (!look(terminal)) return 0;
        if (shown[count - 1] != '\n') continue;
        if (count - line > length && memcmp(shown + line, start, length) == 0) return 1;
        line = count;
    }
}

static int type_lines(int terminal) {
    char line[256];
    size_t length = 0;
    while (read(0, line + length, 1) == 1) {
        if (line[length++] != '\n') continue;
        size_t from = count;
        if (write(terminal, line, length) != (ssize_t)length) return 0;
        if (!wait_for(terminal, from, "        ")) return 0; /* the explanation */
        if (memcmp(line, "WRITE ", 6) == 0 && !wait_for(terminal, count, "(")) return 0;
        length = 0;
    }
    return write(terminal, "\004", 1) == 1;
}

static void become(const char *name, char **words) {
    setsid();
    int own = open(name, O_RDWR);
    if (own < 0) _exit(NO_TERMINAL);
    for (int file = 0; file < 3; file++) dup2(own, file);
    if (own > 2) close(own);
    execvp(words[0], words);
    _exit(NO_TERMINAL);
}

int main(int argc, char **argv) {
    int terminal = posix_openpt(O_RDWR | O_NOCTTY), status = 0;
    if (argc < 2 || terminal < 0 || grantpt(terminal) != 0 || unlockpt(terminal) != 0) return NO_TERMINAL;
    char name[128];
    strcpy(name, ptsname(terminal));
    alarm(SECONDS);
    int child = fork();
    if (child < 0) return NO_TERMINAL;
    if (child == 0) become(name, argv + 1);
    int typed = wait_for(terminal, 0, "session: ") && type_lines(terminal);
    while (look(terminal)) {}
    waitpid(child, &status, 0);
    printf("%.*s", (int)count, shown);
    if (!typed) return 1;
    return WIFEXITED(status) ? WEXITSTATUS(status) : 1;
}
