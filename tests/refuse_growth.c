/* Refuses one growth of memory, or kills the program there, or counts them: tests/run, tests/failing_calls,
 * tests/decodings and tests/stores preload it.
 *
 * Counted from the start of main over all threads, the call number REFUSED_GROWTH of malloc, calloc, realloc,
 * aligned_alloc and posix_memalign is answered as where no memory is left, or where REFUSED_KILLS is set the program is
 * killed in its place. Before that a byte is written to the descriptor REFUSED_TELLS. Where REFUSED_ASKED is set, the
 * program itself asks: a growth of 2^62 bytes and n more, which no memory has, is refused, and so is the n-th one after
 * it, of which a byte is written too. Where REFUSED_COUNTS is set, the count of such calls is written there in digits
 * once main has returned, or as a program that may start threads ends itself. */
#define _GNU_SOURCE
#include <dlfcn.h>
#include <errno.h>
#include <signal.h>
#include <stdatomic.h>
#include <stddef.h>
#include <stdio.h>
#include <stdlib.h>
#include <unistd.h>

typedef int (*main_function)(int, char **, char **);

extern void *__libc_malloc(size_t);
extern void *__libc_calloc(size_t, size_t);
extern void *__libc_realloc(void *, size_t);
extern void *__libc_memalign(size_t, size_t);

static main_function its_main;
static atomic_ulong calls;
/* 0 before main. */
static unsigned long refused;
static int tells = -1;
static int is_asked_for;
/* How many growths there are up to the one that the program asked to have refused; 0 for none. */
static atomic_ulong asked;

#define ASKS ((size_t)1 << 62)

static int is_refused_as_asked(size_t size) {
    if (size >= ASKS) {
        atomic_store(&asked, size - ASKS);
        return 1;
    }
    if (atomic_load(&asked) == 0 || atomic_fetch_sub(&asked, 1) != 1)
        return 0;
    if (write(tells, "r", 1) != 1)
        abort();
    return 1;
}

static int is_refused(size_t size) {
    if (is_asked_for)
        return is_refused_as_asked(size);
    if (refused == 0 || atomic_fetch_add(&calls, 1) + 1 != refused)
        return 0;
    if (write(tells, "r", 1) != 1)
        abort();
    if (getenv("REFUSED_KILLS") != NULL)
        kill(getpid(), SIGKILL);
    return 1;
}

void *malloc(size_t size) {
    if (is_refused(size)) {
        errno = ENOMEM;
        return NULL;
    }
    return __libc_malloc(size);
}

void *calloc(size_t count, size_t size) {
    if (is_refused(size)) {
        errno = ENOMEM;
        return NULL;
    }
    return __libc_calloc(count, size);
}

void *realloc(void *block, size_t size) {
    if (is_refused(size)) {
        errno = ENOMEM;
        return NULL;
    }
    return __libc_realloc(block, size);
}

void *aligned_alloc(size_t alignment, size_t size) {
    if (is_refused(size)) {
        errno = ENOMEM;
        return NULL;
    }
    return __libc_memalign(alignment, size);
}

int posix_memalign(void **block, size_t alignment, size_t size) {
    if (is_refused(size))
        return ENOMEM;
    *block = __libc_memalign(alignment, size);
    return *block == NULL ? ENOMEM : 0;
}

static void tell_count(void) {
    if (getenv("REFUSED_COUNTS") != NULL && dprintf(tells, "%lu", atomic_load(&calls)) < 0)
        abort();
}

static int counted_main(int count, char **words, char **environment) {
    const char *number = getenv("REFUSED_GROWTH");
    const char *descriptor = getenv("REFUSED_TELLS");
    if (number == NULL || descriptor == NULL)
        abort();
    tells = atoi(descriptor);
    refused = strtoul(number, NULL, 10);
    is_asked_for = getenv("REFUSED_ASKED") != NULL;
    int status = its_main(count, words, environment);
    tell_count();
    return status;
}

/* By which a program that may start threads ends, and its main doesn't return. */
void _exit(int status) {
    void (*real)(int) = dlsym(RTLD_NEXT, "_exit");
    tell_count();
    real(status);
    abort();
}

/* What the C library begins a program with: its main becomes the counted one. */
int __libc_start_main(main_function main, int count, char **words, void (*begin)(void), void (*end)(void),
                      void (*linker_end)(void), void *stack_end) {
    int (*real)(main_function, int, char **, void (*)(void), void (*)(void), void (*)(void), void *) =
        dlsym(RTLD_NEXT, "__libc_start_main");
    its_main = main;
    return real(counted_main, count, words, begin, end, linker_end, stack_end);
}
