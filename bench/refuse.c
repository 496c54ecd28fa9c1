// Loaded before the C library: refuses one allocation of a program, or that one and all behind it, and tells how many
// there were. The allocations before main aren't counted.
#include <errno.h>
#include <stddef.h>
#include <stdio.h>
#include <stdlib.h>
#include <sys/syscall.h>
#include <unistd.h>

void *__libc_malloc(size_t);
void *__libc_calloc(size_t, size_t);
void *__libc_realloc(void *, size_t);
void *__libc_memalign(size_t, size_t);

// FIRST is the first one that is refused, from 1; LAST the last one. TO is where their count goes, if anywhere.
static _Atomic unsigned long count;
static unsigned long first, last;
static int to, begun;

static unsigned long number(const char *name) {
    const char *text = getenv(name);
    return text ? strtoul(text, NULL, 10) : 0;
}

__attribute__((constructor)) static void begin(void) {
    first = number("REFUSE_FIRST");
    last = number("REFUSE_LAST");
    to = (int)number("REFUSE_TO");
    begun = 1;
}

__attribute__((destructor)) static void end(void) {
    char text[24];
    int size = snprintf(text, sizeof text, "%lu", count);
    if (!begun) return;
    begun = 0;
    if (to && write(to, text, (size_t)size) != size) syscall(SYS_exit_group, 99);
}

// A program with threads ends by this, and no destructor is called.
__attribute__((noreturn)) void _exit(int status) {
    end();
    for (;;) syscall(SYS_exit_group, status);
}

static int refused(void) {
    if (!begun) return 0;
    unsigned long here = ++count;
    if (here < first || last < here) return 0;
    errno = ENOMEM;
    return 1;
}

void *malloc(size_t size) { return refused() ? NULL : __libc_malloc(size); }
void *calloc(size_t many, size_t size) { return refused() ? NULL : __libc_calloc(many, size); }
void *realloc(void *old, size_t size) { return refused() ? NULL : __libc_realloc(old, size); }
void *memalign(size_t by, size_t size) { return refused() ? NULL : __libc_memalign(by, size); }
void *aligned_alloc(size_t by, size_t size) { return refused() ? NULL : __libc_memalign(by, size); }

int posix_memalign(void **made, size_t by, size_t size) {
    if (refused()) return ENOMEM;
    *made = __libc_memalign(by, size);
    return *made ? 0 : ENOMEM;
}
