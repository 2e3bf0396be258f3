/* Runs a command from file IN to file OUT.
 *
 *   clock IN OUT COMMAND [ARGUMENT..]
 *
 * It prints the microseconds of processor that the command took, with what it waited for, the microseconds from its
 * start to its end, and the most KiB of memory that it had. Its status is 0, or 2 where the command's isn't. */
#define _DEFAULT_SOURCE
#include <fcntl.h>
#include <stdio.h>
#include <stdlib.h>
#include <sys/resource.h>
#include <sys/wait.h>
#include <time.h>
#include <unistd.h>

static void die(const char *what) {
    perror(what);
    exit(2);
}

static long long microseconds(void) {
    struct timespec now;
    clock_gettime(CLOCK_MONOTONIC, &now);
    return now.tv_sec * 1000000LL + now.tv_nsec / 1000;
}

static long long spent(struct timeval part) { return part.tv_sec * 1000000LL + part.tv_usec; }

/* In the new process. */
static void begin(char **argv) {
    int in = open(argv[1], O_RDONLY);
    if (in < 0 || dup2(in, 0) < 0 || close(in) < 0) die(argv[1]);
    int out = open(argv[2], O_WRONLY | O_CREAT | O_TRUNC, 0600);
    if (out < 0 || dup2(out, 1) < 0 || close(out) < 0) die(argv[2]);
    execvp(argv[3], argv + 3);
    die(argv[3]);
}

int main(int argc, char **argv) {
    if (argc < 4) {
        fputs("clock IN OUT COMMAND [ARGUMENT..]\n", stderr);
        return 2;
    }
    long long begun = microseconds();
    pid_t child = fork();
    if (child < 0) die("fork");
    if (child == 0) begin(argv);
    int status;
    struct rusage use;
    if (wait4(child, &status, 0, &use) != child) die("wait4");
    long long ended = microseconds();
    printf("%lld %lld %ld\n", spent(use.ru_utime) + spent(use.ru_stime), ended - begun, use.ru_maxrss);
    return WIFEXITED(status) && WEXITSTATUS(status) == 0 ? 0 : 2;
}
