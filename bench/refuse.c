// Makes one call of a program fail: bench/refused builds it as a library and names it in LD_PRELOAD.
//
// REFUSE_KIND says which calls are meant: `memory` (malloc, calloc, realloc), `read`, `write` or `torn`. REFUSE_AT is the number of the
// one that fails, from 1 on; no call has the number 0. One for memory answers NULL, a read or a write -1 with EIO. A torn write takes
// only the first half of its bytes, and the write after it fails. The file REFUSE_TOLD gets a line for each of these, and a last one with
// how many calls of each kind there were. Counted are the calls from main on, so none of the loader or of the C library's start.
#define _GNU_SOURCE
#include <dlfcn.h>
#include <errno.h>
#include <fcntl.h>
#include <stdarg.h>
#include <stdbool.h>
#include <stdio.h>
#include <stdlib.h>
#include <string.h>
#include <sys/syscall.h>
#include <unistd.h>

enum { MEMORY, READ, WRITE, KINDS };

typedef int program(int, char **, char **);
typedef void step(void);

extern void *__libc_malloc(size_t), *__libc_calloc(size_t, size_t), *__libc_realloc(void *, size_t);

static unsigned long counts[KINDS], chosen;
static int kind = -1;
static bool tears, counting, torn;
static program *whole;

// Writes a line to the file of the script, by calls that aren't counted.
__attribute__((format(printf, 1, 2))) static void tell(const char *format, ...)
{
    char line[128];
    int error = errno;
    va_list values;
    va_start(values, format);
    int length = vsnprintf(line, sizeof line, format, values);
    va_end(values);
    int file = syscall(SYS_openat, AT_FDCWD, getenv("REFUSE_TOLD"), O_WRONLY | O_CREAT | O_APPEND, 0600);
    syscall(SYS_write, file, line, (size_t)length);
    syscall(SYS_close, file);
    errno = error;
}

// Counts a call, and answers whether it is the chosen one.
static bool is_chosen(int called)
{
    return counting && ++counts[called] == chosen && called == kind;
}

static void *no_memory(void)
{
    tell("refused memory\n");
    errno = ENOMEM;
    return NULL;
}

static ssize_t no_bytes(const char *call, int file)
{
    tell("refused %s %d\n", call, file);
    errno = EIO;
    return -1;
}

void *malloc(size_t size)
{
    return is_chosen(MEMORY) ? no_memory() : __libc_malloc(size);
}

void *calloc(size_t count, size_t size)
{
    return is_chosen(MEMORY) ? no_memory() : __libc_calloc(count, size);
}

void *realloc(void *old, size_t size)
{
    return is_chosen(MEMORY) ? no_memory() : __libc_realloc(old, size);
}

ssize_t read(int file, void *bytes, size_t length)
{
    return is_chosen(READ) ? no_bytes("read", file) : syscall(SYS_read, file, bytes, length);
}

ssize_t write(int file, const void *bytes, size_t length)
{
    bool here = is_chosen(WRITE);
    if (torn || (here && !tears)) {
        torn = false;
        return no_bytes("write", file);
    }
    if (here) {
        torn = true;
        tell("torn write %d\n", file);
        length -= length / 2;
    }
    return syscall(SYS_write, file, bytes, length);
}

static int counted_main(int count, char **words, char **environment)
{
    counting = true;
    int status = whole(count, words, environment);
    counting = false;
    return status;
}

__attribute__((destructor)) static void end(void)
{
    counting = false;
    tell("calls %lu %lu %lu\n", counts[MEMORY], counts[READ], counts[WRITE]);
}

int __libc_start_main(program *main, int count, char **words, step *init, step *fini, step *ended, void *stack)
{
    static const char *const names[KINDS] = {"memory", "read", "write"};
    const char *named = getenv("REFUSE_KIND");
    tears = strcmp(named, "torn") == 0;
    for (int i = 0; i < KINDS; i++)
        if (strcmp(tears ? "write" : named, names[i]) == 0)
            kind = i;
    chosen = strtoul(getenv("REFUSE_AT"), NULL, 10);
    whole = main;
    int (*start)(program *, int, char **, step *, step *, step *, void *) = dlsym(RTLD_NEXT, "__libc_start_main");
    return start(counted_main, count, words, init, fini, ended, stack);
}
