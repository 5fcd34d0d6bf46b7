// Disturbs one call of a program, for a preload. INTERRUPT is a number, perhaps followed by the name of a file:
// N          the Nth write to standard output is interrupted, counted from 1
// N NAME     the Nth read of this file is interrupted
// 0          each kill fails with EPERM
// 0 NAME     a pipe replaces this file just before the program opens it for reading
// -N         the program is killed before the Nth of its calls that may change a file
#define _GNU_SOURCE
#include <dlfcn.h>
#include <errno.h>
#include <fcntl.h>
#include <signal.h>
#include <stdarg.h>
#include <stdio.h>
#include <stdlib.h>
#include <string.h>
#include <sys/stat.h>
#include <unistd.h>

static ssize_t (*real_write)(int, const void *, size_t);
static ssize_t (*real_read)(int, void *, size_t);
static int (*real_open)(const char *, int, ...);
static int (*real_kill)(pid_t, int);
static long count, wanted = -1;
// Empty if a write is interrupted or kills fail.
static char name[256];

__attribute__((constructor)) static void begin(void)
{
    const char *words = getenv("INTERRUPT");
    real_write = dlsym(RTLD_NEXT, "write");
    real_read = dlsym(RTLD_NEXT, "read");
    real_open = dlsym(RTLD_NEXT, "open");
    real_kill = dlsym(RTLD_NEXT, "kill");
    if (words)
        sscanf(words, "%ld %255s", &wanted, name);
    unsetenv("LD_PRELOAD");
    unsetenv("INTERRUPT");
}

// Returns 1 if this call is interrupted.
static int is_wanted(int here)
{
    if (wanted < 0 || !here || ++count != wanted)
        return 0;
    errno = EINTR;
    return 1;
}

// Kills the program if it must end before this call.
static void may_end(void)
{
    if (wanted < 0 && ++count == -wanted)
        raise(SIGKILL);
}

// Returns 1 if a path ends in the name.
static int ends_in_name(const char *path)
{
    const char *last = strrchr(path, '/');
    return name[0] && last && !strcmp(last + 1, name);
}

// Returns 1 if an open file has the name.
static int is_named(int file)
{
    char link[64], path[4096];
    ssize_t length;
    snprintf(link, sizeof link, "/proc/self/fd/%d", file);
    length = readlink(link, path, sizeof path - 1);
    path[length < 0 ? 0 : length] = 0;
    return ends_in_name(path);
}

ssize_t write(int file, const void *bytes, size_t size)
{
    may_end();
    return is_wanted(!name[0] && file == 1) ? -1 : real_write(file, bytes, size);
}

ssize_t read(int file, void *bytes, size_t size)
{
    return is_wanted(is_named(file)) ? -1 : real_read(file, bytes, size);
}

int open(const char *path, int flags, ...)
{
    va_list rest;
    int mode;
    va_start(rest, flags);
    mode = flags & O_CREAT ? va_arg(rest, int) : 0;
    va_end(rest);
    if (flags & O_CREAT)
        may_end();
    if (!wanted && !(flags & O_CREAT) && ends_in_name(path) && !unlink(path))
        mkfifo(path, 0600);
    return real_open(path, flags, mode);
}

int kill(pid_t process, int signal)
{
    if (!wanted && !name[0]) {
        errno = EPERM;
        return -1;
    }
    return real_kill(process, signal);
}

#define MAY_END(type, call, parameters, arguments)          \
    type call parameters                                    \
    {                                                       \
        type(*real) parameters = dlsym(RTLD_NEXT, #call);   \
        may_end();                                          \
        return real arguments;                              \
    }

MAY_END(ssize_t, pwrite, (int file, const void *bytes, size_t size, off_t at), (file, bytes, size, at))
MAY_END(int, ftruncate, (int file, off_t size), (file, size))
MAY_END(int, fchmod, (int file, mode_t mode), (file, mode))
MAY_END(int, fchown, (int file, uid_t user, gid_t group), (file, user, group))
MAY_END(int, fsync, (int file), (file))
MAY_END(int, fdatasync, (int file), (file))
MAY_END(int, link, (const char *from, const char *to), (from, to))
MAY_END(int, rename, (const char *from, const char *to), (from, to))
MAY_END(int, unlink, (const char *path), (path))
