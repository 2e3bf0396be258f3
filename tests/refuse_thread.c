/* Refuses threads: tests/run preloads it into the program.
 *
 * Of each REFUSED_OF threads that the program makes, counted from the first, the one with the number REFUSED_THREAD is
 * answered as where there is no room for one, and a byte is written to the descriptor REFUSED_TELLS. */
#define _GNU_SOURCE
#include <dlfcn.h>
#include <errno.h>
#include <pthread.h>
#include <stdatomic.h>
#include <stdlib.h>
#include <unistd.h>

static atomic_ulong threads;

static unsigned long number_in(const char *name) {
    const char *word = getenv(name);
    if (word == NULL)
        abort();
    return strtoul(word, NULL, 10);
}

int pthread_create(pthread_t *thread, const pthread_attr_t *attributes, void *(*run)(void *), void *given) {
    int (*real)(pthread_t *, const pthread_attr_t *, void *(*)(void *), void *) = dlsym(RTLD_NEXT, "pthread_create");
    unsigned long place = atomic_fetch_add(&threads, 1) % number_in("REFUSED_OF") + 1;
    if (place != number_in("REFUSED_THREAD"))
        return real(thread, attributes, run, given);
    if (write((int)number_in("REFUSED_TELLS"), "r", 1) != 1)
        abort();
    return EAGAIN;
}
