/* Refuses a call of the system, kills the program there or lets it wait: tests/run, tests/failing_calls,
 * tests/meeting_saves, tests/failing_meetings, tests/in_place and tests/stores preload it.
 *
 * The call that REFUSED_CALL names, `open`, `read`, `pread`, `write`, `pwrite`, `fsync`, `fdatasync`, `rename`, `link`,
 * `ftruncate`, `fchmod`, `fchown`, `flock`, `unlink`, `dup`, `statx`, `realpath` or `readlink`, or each of these by `any`,
 * fails with the error number REFUSED_ERROR, or where that is 0 the program is killed in its place: the call number
 * REFUSED_NTH, counted from 1 over all threads, or each where there is no such number. Each call whose number is among
 * REFUSED_AT is made, or fails, only once the descriptor in its place among REFUSED_WAITS is at its end; both are lists of
 * numbers with commas between. Where there is REFUSED_ABOUT, only calls about a file
 * with this in its path count. Each of these calls, of whatever name, is told to the descriptor REFUSED_TELLS, if there is
 * one, in a line: its name; how the file is opened, 0 to read, 1 to write, 2 for both; and its path, or `&N` of the
 * descriptors 0 to 2. One that waits is told again, by the name `waits`, and one that is refused by the name `refused`.
 *
 * Where there is REFUSED_HASTE, so many times faster time passes for the program: nobody waits whole seconds for a lock. */
#define _GNU_SOURCE
#include <dlfcn.h>
#include <errno.h>
#include <fcntl.h>
#include <signal.h>
#include <stdarg.h>
#include <stdatomic.h>
#include <stdio.h>
#include <stdlib.h>
#include <string.h>
#include <sys/stat.h>
#include <sys/syscall.h>
#include <time.h>
#include <unistd.h>

static atomic_ulong calls;

static void tell(const char *call, int access, const char *path) {
    const char *tells = getenv("REFUSED_TELLS");
    char line[4200];
    int length = snprintf(line, sizeof line, "%s %d %s\n", call, access, path);
    if (tells != NULL && syscall(SYS_write, atoi(tells), line, (size_t)length) != length)
        abort();
}

static void wait_for_the_end(int descriptor) {
    char byte;
    while (syscall(SYS_read, descriptor, &byte, 1) != 0)
        continue;
}

/* The descriptor at whose end the call of this number is made, or -1 where it needn't wait. */
static int descriptor_for(unsigned long number) {
    const char *at = getenv("REFUSED_AT"), *waits = getenv("REFUSED_WAITS");
    while (at != NULL && waits != NULL && *at != 0 && *waits != 0) {
        char *behind_at, *behind_waits;
        unsigned long held = strtoul(at, &behind_at, 10);
        long descriptor = strtol(waits, &behind_waits, 10);
        if (held == number)
            return (int)descriptor;
        at = *behind_at == ',' ? behind_at + 1 : behind_at;
        waits = *behind_waits == ',' ? behind_waits + 1 : behind_waits;
    }
    return -1;
}

static int is_refused(const char *call, int access, const char *path) {
    const char *about = getenv("REFUSED_ABOUT"), *nth = getenv("REFUSED_NTH"), *error = getenv("REFUSED_ERROR");
    const char *refused = getenv("REFUSED_CALL");
    if (refused == NULL || error == NULL || (about != NULL && strstr(path, about) == NULL))
        return 0;
    tell(call, access, path);
    if (strcmp(refused, call) != 0 && strcmp(refused, "any") != 0)
        return 0;
    unsigned long number = atomic_fetch_add(&calls, 1) + 1;
    int waits = descriptor_for(number);
    if (waits >= 0) {
        tell("waits", access, path);
        wait_for_the_end(waits);
    }
    if (nth != NULL && number != strtoul(nth, NULL, 10))
        return 0;
    tell("refused", access, path);
    errno = atoi(error);
    if (errno == 0)
        kill(getpid(), SIGKILL);
    return 1;
}

static int is_refused_of(const char *call, int descriptor) {
    char link[64], path[4096] = "";
    snprintf(link, sizeof link, descriptor <= 2 ? "&%d" : "/proc/self/fd/%d", descriptor);
    if (descriptor <= 2)
        return is_refused(call, 0, link);
    int before = errno;
    if (syscall(SYS_readlinkat, AT_FDCWD, link, path, sizeof path - 1) < 0)
        abort();
    int access = (int)syscall(SYS_fcntl, descriptor, F_GETFL) & O_ACCMODE;
    errno = before;
    return is_refused(call, access, path);
}

#define REAL(name, result, ...) ((result(*)(__VA_ARGS__))dlsym(RTLD_NEXT, name))

int open(const char *path, int flags, ...) {
    va_list rest;
    va_start(rest, flags);
    mode_t mode = flags & O_CREAT ? va_arg(rest, mode_t) : 0;
    va_end(rest);
    return is_refused("open", flags & O_ACCMODE, path)
               ? -1
               : REAL("open", int, const char *, int, ...)(path, flags, mode);
}

ssize_t read(int descriptor, void *bytes, size_t size) {
    return is_refused_of("read", descriptor) ? -1 : REAL("read", ssize_t, int, void *, size_t)(descriptor, bytes, size);
}

ssize_t pread(int descriptor, void *bytes, size_t size, off_t at) {
    return is_refused_of("pread", descriptor)
               ? -1
               : REAL("pread", ssize_t, int, void *, size_t, off_t)(descriptor, bytes, size, at);
}

ssize_t pwrite(int descriptor, const void *bytes, size_t size, off_t at) {
    return is_refused_of("pwrite", descriptor)
               ? -1
               : REAL("pwrite", ssize_t, int, const void *, size_t, off_t)(descriptor, bytes, size, at);
}

ssize_t write(int descriptor, const void *bytes, size_t size) {
    return is_refused_of("write", descriptor)
               ? -1
               : REAL("write", ssize_t, int, const void *, size_t)(descriptor, bytes, size);
}

int fsync(int descriptor) {
    return is_refused_of("fsync", descriptor) ? -1 : REAL("fsync", int, int)(descriptor);
}

int fdatasync(int descriptor) {
    return is_refused_of("fdatasync", descriptor) ? -1 : REAL("fdatasync", int, int)(descriptor);
}

int ftruncate(int descriptor, off_t size) {
    return is_refused_of("ftruncate", descriptor) ? -1 : REAL("ftruncate", int, int, off_t)(descriptor, size);
}

int fchmod(int descriptor, mode_t mode) {
    return is_refused_of("fchmod", descriptor) ? -1 : REAL("fchmod", int, int, mode_t)(descriptor, mode);
}

int fchown(int descriptor, uid_t owner, gid_t group) {
    return is_refused_of("fchown", descriptor) ? -1 : REAL("fchown", int, int, uid_t, gid_t)(descriptor, owner, group);
}

int flock(int descriptor, int how) {
    return is_refused_of("flock", descriptor) ? -1 : REAL("flock", int, int, int)(descriptor, how);
}

int rename(const char *from, const char *to) {
    return is_refused("rename", 1, from) ? -1 : REAL("rename", int, const char *, const char *)(from, to);
}

int link(const char *from, const char *to) {
    return is_refused("link", 1, from) ? -1 : REAL("link", int, const char *, const char *)(from, to);
}

int unlink(const char *path) {
    return is_refused("unlink", 1, path) ? -1 : REAL("unlink", int, const char *)(path);
}

int statx(int folder, const char *path, int flags, unsigned mask, struct statx *found) {
    int is_refused_here = path[0] == 0 ? is_refused_of("statx", folder) : is_refused("statx", 0, path);
    return is_refused_here ? -1
                           : REAL("statx", int, int, const char *, int, unsigned, struct statx *)(folder, path, flags,
                                                                                                 mask, found);
}

char *realpath(const char *path, char *whole) {
    return is_refused("realpath", 0, path) ? NULL : REAL("realpath", char *, const char *, char *)(path, whole);
}

ssize_t readlink(const char *path, char *target, size_t size) {
    return is_refused("readlink", 0, path)
               ? -1
               : REAL("readlink", ssize_t, const char *, char *, size_t)(path, target, size);
}

/* Of the calls of this name only those that give a file another descriptor count. */
int fcntl(int descriptor, int command, ...) {
    va_list rest;
    va_start(rest, command);
    long value = va_arg(rest, long);
    va_end(rest);
    if (command == F_DUPFD_CLOEXEC && is_refused_of("dup", descriptor))
        return -1;
    return REAL("fcntl", int, int, int, ...)(descriptor, command, value);
}

#define SECOND 1000000000ll

static long long haste(void) {
    const char *asked = getenv("REFUSED_HASTE");
    return asked == NULL ? 1 : atoll(asked);
}

static long long nanoseconds_of(const struct timespec *time) {
    return time->tv_sec * SECOND + time->tv_nsec;
}

static struct timespec time_of(long long nanoseconds) {
    return (struct timespec){.tv_sec = nanoseconds / SECOND, .tv_nsec = nanoseconds % SECOND};
}

int clock_gettime(clockid_t clock, struct timespec *now) {
    long ended = syscall(SYS_clock_gettime, clock, now);
    if (ended == 0 && clock == CLOCK_MONOTONIC)
        *now = time_of(nanoseconds_of(now) * haste());
    return (int)ended;
}

int nanosleep(const struct timespec *asked, struct timespec *left) {
    struct timespec shorter = time_of(nanoseconds_of(asked) / haste());
    return (int)syscall(SYS_nanosleep, &shorter, left);
}

/* Until a time the same way: a clock's time is as much later as it is shown. */
int clock_nanosleep(clockid_t clock, int flags, const struct timespec *asked, struct timespec *left) {
    struct timespec shorter = time_of(nanoseconds_of(asked) / haste());
    return syscall(SYS_clock_nanosleep, clock, flags, &shorter, left) == 0 ? 0 : errno;
}
