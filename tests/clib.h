/* What the tests use of the C library, for a compiler that has no headers at hand: see build. */
#ifndef CLIB_H
#define CLIB_H

typedef __SIZE_TYPE__ size_t;
typedef __UINT8_TYPE__ uint8_t;
typedef __UINT32_TYPE__ uint32_t;
typedef __UINT64_TYPE__ uint64_t;
typedef __UINTPTR_TYPE__ uintptr_t;
#define NULL ((void *)0)
#define UINT32_MAX 4294967295u
#define offsetof(type, member) __builtin_offsetof(type, member)

int printf(const char *form, ...);
extern void *stdin, *stdout, *stderr;
int fprintf(void *file, const char *form, ...);
int fflush(void *file);
int ferror(void *file);
size_t fread(void *to, size_t bytes, size_t times, void *file);
size_t fwrite(const void *from, size_t bytes, size_t times, void *file);
void exit(int status);
void _exit(int status);
void *malloc(size_t bytes);
void *realloc(void *at, size_t bytes);
unsigned long long strtoull(const char *text, char **end, int base);
void *memcpy(void *to, const void *from, size_t bytes);
void *memset(void *to, int byte, size_t bytes);
void *memmove(void *to, const void *from, size_t bytes);
int memcmp(const void *a, const void *b, size_t bytes);
int sprintf(char *to, const char *form, ...);
char *strcpy(char *to, const char *from);
char *strcat(char *to, const char *from);
size_t strlen(const char *text);
int strcmp(const char *a, const char *b);

typedef long ssize_t;
ssize_t read(int file, void *to, size_t bytes);
ssize_t write(int file, const void *from, size_t bytes);
unsigned alarm(unsigned seconds);
void (*signal(int number, void (*handler)(int)))(int);
#define SIGILL 4
#define SIGBUS 7
#define SIGFPE 8
#define SIGSEGV 11
#define SIGALRM 14

int posix_openpt(int flags);
int grantpt(int file);
int unlockpt(int file);
char *ptsname(int file);
int open(const char *name, int flags, ...);
int close(int file);
int dup2(int from, int to);
int fork(void);
int setsid(void);
int execvp(const char *program, char *const words[]);
int waitpid(int process, int *status, int options);
#define O_RDWR 2
#define O_NOCTTY 256
#define WIFEXITED(status) (((status) & 127) == 0)
#define WEXITSTATUS(status) ((status) >> 8 & 255)

void *mmap(void *at, size_t bytes, int access, int flags, int file, long offset);
int mprotect(void *at, size_t bytes, int access);
#define PROT_NONE 0
#define PROT_READ 1
#define PROT_WRITE 2
#define MAP_PRIVATE 2
#define MAP_ANONYMOUS 32
#define MAP_FAILED ((void *)-1)

#endif
