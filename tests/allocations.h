// Wraps the allocations of a program, for a preload that defines malloc and is_refused. An allocation fails if is_refused returns 1.
#include <dlfcn.h>
#include <errno.h>
#include <stddef.h>

static void *(*real_malloc)(size_t);
static void *(*real_calloc)(size_t, size_t);
static void *(*real_realloc)(void *, size_t);
static void *(*real_aligned_alloc)(size_t, size_t);
static int (*real_posix_memalign)(void **, size_t, size_t);

static int is_refused(void);

// The memory that the loader allocates by calloc before the real calloc is known.
static char room[65536];
static size_t taken;

void *calloc(size_t n, size_t size)
{
    if (!real_calloc) {
        size_t want = (n * size + 15) & ~(size_t)15;
        void *given = want <= sizeof room - taken ? room + taken : NULL;
        taken += given ? want : 0;
        return given;
    }
    return is_refused() ? NULL : real_calloc(n, size);
}

void *realloc(void *old, size_t size)
{
    if (!real_realloc)
        real_realloc = dlsym(RTLD_NEXT, "realloc");
    return is_refused() ? NULL : real_realloc(old, size);
}

void *aligned_alloc(size_t align, size_t size)
{
    return is_refused() ? NULL : real_aligned_alloc(align, size);
}

int posix_memalign(void **out, size_t align, size_t size)
{
    return is_refused() ? ENOMEM : real_posix_memalign(out, align, size);
}
