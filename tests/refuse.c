// Makes one allocation of a program fail, for a preload. REFUSE is its number, counted from 1. When the allocation fails, it creates the
// file that REFUSED names. COUNTED names a file that gets the number of allocations. The program's children are not affected.
#define _GNU_SOURCE
#include <dlfcn.h>
#include <errno.h>
#include <fcntl.h>
#include <stddef.h>
#include <stdio.h>
#include <stdlib.h>
#include <string.h>
#include <unistd.h>
#include "allocations.h"

static long count, wanted;
static char told[4096], counted[4096];

// The allocations that the loader makes before this function don't fail.
__attribute__((constructor)) static void begin(void)
{
    real_malloc = dlsym(RTLD_NEXT, "malloc");
    real_calloc = dlsym(RTLD_NEXT, "calloc");
    real_realloc = dlsym(RTLD_NEXT, "realloc");
    real_aligned_alloc = dlsym(RTLD_NEXT, "aligned_alloc");
    real_posix_memalign = dlsym(RTLD_NEXT, "posix_memalign");
    const char *number = getenv("REFUSE"), *file = getenv("REFUSED"), *sum = getenv("COUNTED");
    if (file)
        strncpy(told, file, sizeof told - 1);
    if (sum)
        strncpy(counted, sum, sizeof counted - 1);
    wanted = number ? atol(number) : 0;
    unsetenv("LD_PRELOAD");
    unsetenv("REFUSE");
    unsetenv("REFUSED");
    unsetenv("COUNTED");
}

__attribute__((destructor)) static void end(void)
{
    int file = *counted ? open(counted, O_CREAT | O_WRONLY | O_TRUNC, 0600) : -1;
    if (file >= 0) {
        dprintf(file, "%ld\n", count);
        close(file);
    }
}

static int is_refused(void)
{
    if (++count != wanted)
        return 0;
    int file = open(told, O_CREAT | O_WRONLY, 0600);
    if (file >= 0)
        close(file);
    errno = ENOMEM;
    return 1;
}

void *malloc(size_t size)
{
    if (!real_malloc)
        real_malloc = dlsym(RTLD_NEXT, "malloc");
    return is_refused() ? NULL : real_malloc(size);
}
