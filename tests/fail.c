// Fails one call of a program, for a preload. FAIL is the number of the call, counted from 1, and perhaps its name: it fails with EIO.
// CALLS names a file that gets a line for each call: its name and the file, after the word `failed` for the call that fails.
// Only calls on files whose names begin with x.db, and on their directory, are counted. The program's children are not affected.
#define _GNU_SOURCE
#include <dlfcn.h>
#include <errno.h>
#include <fcntl.h>
#include <stdarg.h>
#include <stdio.h>
#include <stdlib.h>
#include <string.h>
#include <sys/file.h>
#include <unistd.h>

static long count, wanted;
static int calls = -1;
static char name[32], here[4096];

__attribute__((constructor)) static void begin(void)
{
    const char *words = getenv("FAIL"), *list = getenv("CALLS");
    if (words)
        sscanf(words, "%ld %31s", &wanted, name);
    if (list)
        calls = open(list, O_CREAT | O_WRONLY | O_APPEND | O_CLOEXEC, 0600);
    if (!getcwd(here, sizeof here))
        here[0] = 0;
    unsetenv("LD_PRELOAD");
    unsetenv("FAIL");
    unsetenv("CALLS");
}

// Checks whether a call on a path is the one that fails.
static int fails_at(const char *call, const char *path)
{
    const char *slash = strrchr(path, '/'), *last = slash ? slash + 1 : path;
    int fails;
    if (strncmp(last, "x.db", 4) && strcmp(path, here))
        return 0;
    fails = (!name[0] || !strcmp(name, call)) && ++count == wanted;
    if (calls >= 0)
        dprintf(calls, "%s%s %s\n", fails ? "failed " : "", call, last);
    errno = EIO;
    return fails;
}

// Checks whether a call on an open file is the one that fails.
static int fails(const char *call, int file)
{
    char link[64], path[4096];
    ssize_t length;
    snprintf(link, sizeof link, "/proc/self/fd/%d", file);
    length = readlink(link, path, sizeof path - 1);
    path[length < 0 ? 0 : length] = 0;
    return fails_at(call, path);
}

#define MAY_FAIL(type, call, parameters, arguments, is_wanted)                   \
    type call parameters                                                         \
    {                                                                            \
        static type(*real) parameters;                                           \
        if (!real)                                                               \
            real = (type(*) parameters)dlsym(RTLD_NEXT, #call);                  \
        return is_wanted ? -1 : real arguments;                                  \
    }

MAY_FAIL(ssize_t, read, (int file, void *bytes, size_t size), (file, bytes, size), fails("read", file))
MAY_FAIL(ssize_t, write, (int file, const void *bytes, size_t size), (file, bytes, size), fails("write", file))
MAY_FAIL(ssize_t, pread, (int file, void *bytes, size_t size, off_t at), (file, bytes, size, at), fails("pread", file))
MAY_FAIL(ssize_t, pwrite, (int file, const void *bytes, size_t size, off_t at), (file, bytes, size, at), fails("pwrite", file))
MAY_FAIL(int, fsync, (int file), (file), fails("fsync", file))
MAY_FAIL(int, fdatasync, (int file), (file), fails("fdatasync", file))
MAY_FAIL(int, ftruncate, (int file, off_t size), (file, size), fails("ftruncate", file))
MAY_FAIL(int, flock, (int file, int how), (file, how), fails("flock", file))
MAY_FAIL(int, link, (const char *from, const char *to), (from, to), fails_at("link", to))
MAY_FAIL(int, unlink, (const char *path), (path), fails_at("unlink", path))

int open(const char *path, int flags, ...)
{
    static int (*real)(const char *, int, ...);
    va_list rest;
    int mode;
    if (!real)
        real = (int (*)(const char *, int, ...))dlsym(RTLD_NEXT, "open");
    va_start(rest, flags);
    mode = flags & O_CREAT ? va_arg(rest, int) : 0;
    va_end(rest);
    return fails_at("open", path) ? -1 : real(path, flags, mode);
}
