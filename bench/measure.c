/* Runs a command, before all that is not as urgent (SCHED_FIFO) where that is allowed, and appends a line to FILE: its seconds, its
   processor seconds with those of the children that it waited for, and the largest memory of any of them in KiB. Exits as the command
   does.
     measure FILE COMMAND [WORD..] */
#include <errno.h>
#include <sched.h>
#include <spawn.h>
#include <stdio.h>
#include <sys/resource.h>
#include <sys/wait.h>
#include <time.h>

extern char **environ;

static double seconds(struct timeval time)
{
    return time.tv_sec + time.tv_usec / 1e6;
}

static double now(void)
{
    struct timespec time;
    clock_gettime(CLOCK_MONOTONIC, &time);
    return time.tv_sec + time.tv_nsec / 1e9;
}

/* Starts a command; returns its number, or 0. */
static pid_t started(char **words)
{
    posix_spawnattr_t urgent;
    struct sched_param first = {.sched_priority = 1};
    pid_t child;
    errno = posix_spawnattr_init(&urgent);
    if (errno)
        return 0;
    posix_spawnattr_setschedpolicy(&urgent, SCHED_FIFO);
    posix_spawnattr_setschedparam(&urgent, &first);
    posix_spawnattr_setflags(&urgent, POSIX_SPAWN_SETSCHEDULER);
    errno = posix_spawnp(&child, words[0], NULL, &urgent, words, environ);
    if (errno == EPERM)
        errno = posix_spawnp(&child, words[0], NULL, NULL, words, environ);
    posix_spawnattr_destroy(&urgent);
    return errno ? 0 : child;
}

int main(int count, char **words)
{
    if (count < 3)
        return 2;
    FILE *figures = fopen(words[1], "ae");
    double begun = now();
    pid_t child = figures ? started(words + 2) : 0;
    int status;
    struct rusage used;
    if (!child || wait4(child, &status, 0, &used) != child) {
        perror(words[2]);
        return 2;
    }
    fprintf(figures, "%.4f %.4f %ld\n", now() - begun, seconds(used.ru_utime) + seconds(used.ru_stime), used.ru_maxrss);
    return WIFEXITED(status) ? WEXITSTATUS(status) : 128 + WTERMSIG(status);
}
