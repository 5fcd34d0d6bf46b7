// Makes the allocations of a program fail in turn, for a preload. The program itself continues unchanged. At each allocation that is tried,
// a copy of the program continues in which this allocation fails. An answer is what a copy writes to standard error, with its wait status.
//
// COUNTED       a file that gets the number of the program's allocations. With BY_PLACE it also gets how many of them PLACES would try,
//               and then a line HASH COUNT for each place in the code
// ANSWERS       a file that gets the answers, each once: a line FIRST TIMES STATUS BYTES, then these bytes and a newline. FIRST is the
//               first allocation with this answer, and TIMES how many have it. The last line is TRIED SECONDS, over all copies
// FROM, STEP    the first allocation that is tried, counted from 1, and the distance to the next ones
// PLACES        a file that COUNTED wrote with BY_PLACE. Of the allocations from one place in the code it tries the first four, the last,
//               those whose number among them is a power of two, and about four in between; of all these one in EVERY
// COPY_SECONDS  the limit of a copy in processor seconds; SIGVTALRM ends a copy that takes more
//
// A place in the code is the list of return addresses on the stack. They are found without the sizes of frames. The next return address is
// the next word that points after a call. That call goes to the function that contains the last address, or through a register.
#define _GNU_SOURCE
#include <dlfcn.h>
#include <elf.h>
#include <errno.h>
#include <fcntl.h>
#include <link.h>
#include <signal.h>
#include <stddef.h>
#include <stdint.h>
#include <stdio.h>
#include <stdlib.h>
#include <string.h>
#include <sys/mman.h>
#include <sys/resource.h>
#include <sys/stat.h>
#include <sys/syscall.h>
#include <sys/time.h>
#include <sys/wait.h>
#include <unistd.h>
#include "../tests/allocations.h"

enum { LONGEST = 1 << 26, ANSWERS = 1 << 16, KEPT = 1 << 30, PLACES = 1 << 20 };

struct place { uint64_t hash, all, seen; };
struct answer { uint64_t hash, first, times, from, bytes; int status; };
// The text that a copy has written so far.
struct page { uint64_t bytes; char text[LONGEST]; };

extern void *__libc_stack_end;
static ssize_t (*real_write)(int, const void *, size_t);

static uint64_t count, from, step, every, chosen, tried, micros, answered, kept;
static long seconds;
static char counted[4096], told[4096];
static struct place *places;
static int by_place;
static struct answer *answers;
static char *texts;
static struct page *page;
static int is_copy;
static const unsigned char *code, *behind_code, *loaded;
// The addresses of functions, in their order.
static const unsigned char **functions;
static size_t function_count;

static void *room_for(size_t bytes)
{
    void *room = mmap(NULL, bytes, PROT_READ | PROT_WRITE, MAP_PRIVATE | MAP_ANONYMOUS | MAP_NORESERVE, -1, 0);
    if (room == MAP_FAILED)
        _exit(99);
    // No copy reads it.
    madvise(room, bytes, MADV_DONTFORK);
    return room;
}

static int find_code(struct dl_phdr_info *object, size_t size, void *unused)
{
    (void)size, (void)unused;
    loaded = (const unsigned char *)object->dlpi_addr;
    for (int n = 0; n < object->dlpi_phnum; n++)
        if (object->dlpi_phdr[n].p_type == PT_LOAD && object->dlpi_phdr[n].p_flags & PF_X) {
            code = (const unsigned char *)object->dlpi_addr + object->dlpi_phdr[n].p_vaddr;
            behind_code = code + object->dlpi_phdr[n].p_memsz;
        }
    // The first object is the program.
    return 1;
}

static int compare(const void *one, const void *other)
{
    const unsigned char *first = *(const unsigned char *const *)one, *second = *(const unsigned char *const *)other;
    return first < second ? -1 : first > second;
}

// Reads the addresses of functions from the symbol table.
static void read_functions(void)
{
    int file = open("/proc/self/exe", O_RDONLY);
    struct stat found;
    const unsigned char *bytes;
    if (file < 0 || fstat(file, &found) != 0)
        _exit(99);
    bytes = mmap(NULL, found.st_size, PROT_READ, MAP_PRIVATE, file, 0);
    close(file);
    const Elf64_Ehdr *head = (const Elf64_Ehdr *)bytes;
    const Elf64_Shdr *sections = (const Elf64_Shdr *)(bytes + head->e_shoff);
    for (int n = 0; n < head->e_shnum; n++) {
        const Elf64_Sym *symbols = (const Elf64_Sym *)(bytes + sections[n].sh_offset);
        size_t all = sections[n].sh_size / sizeof *symbols;
        if (sections[n].sh_type != SHT_SYMTAB)
            continue;
        functions = room_for(all * sizeof *functions + 1);
        for (size_t k = 0; k < all; k++)
            if (ELF64_ST_TYPE(symbols[k].st_info) == STT_FUNC && symbols[k].st_value)
                functions[function_count++] = loaded + symbols[k].st_value;
        qsort(functions, function_count, sizeof *functions, compare);
    }
    munmap((void *)bytes, found.st_size);
}

// Returns the address of the function that contains this address.
static const unsigned char *function_of(const unsigned char *at)
{
    size_t low = 0, high = function_count;
    while (high - low > 1) {
        size_t middle = (low + high) / 2;
        if (functions[middle] <= at)
            low = middle;
        else
            high = middle;
    }
    return function_count ? functions[low] : code;
}

static struct place *place_of(uint64_t hash)
{
    uint64_t at = hash % PLACES;
    while (places[at].hash && places[at].hash != hash)
        at = (at + 1) % PLACES;
    places[at].hash = hash;
    return places + at;
}

static void read_places(const char *path)
{
    FILE *file = fopen(path, "r");
    uint64_t hash, all;
    if (!file)
        _exit(99);
    if (fscanf(file, "%*u %*u") != EOF)
        while (fscanf(file, "%lx %lu", &hash, &all) == 2)
            place_of(hash)->all = all;
    fclose(file);
}

static uint64_t number_in(const char *name, uint64_t other)
{
    const char *text = getenv(name);
    return text ? strtoull(text, NULL, 10) : other;
}

// The allocations that the loader makes before this function don't fail.
__attribute__((constructor)) static void begin(void)
{
    const char *sum = getenv("COUNTED"), *file = getenv("ANSWERS"), *list = getenv("PLACES");
    dl_iterate_phdr(find_code, NULL);
    if (sum)
        strncpy(counted, sum, sizeof counted - 1);
    if (list || getenv("BY_PLACE")) {
        places = room_for(PLACES * sizeof *places);
        read_functions();
    }
    if (list) {
        read_places(list);
        by_place = 1;
    }
    if (file) {
        strncpy(told, file, sizeof told - 1);
        from = number_in("FROM", 1);
        step = number_in("STEP", 1);
        every = number_in("EVERY", 1);
        seconds = number_in("COPY_SECONDS", 60);
        answers = room_for(ANSWERS * sizeof *answers);
        texts = room_for(KEPT);
        page = mmap(NULL, sizeof *page, PROT_READ | PROT_WRITE, MAP_SHARED | MAP_ANONYMOUS | MAP_NORESERVE, -1, 0);
        if (page == MAP_FAILED)
            _exit(99);
    }
    real_write = dlsym(RTLD_NEXT, "write");
    real_calloc = dlsym(RTLD_NEXT, "calloc");
    real_realloc = dlsym(RTLD_NEXT, "realloc");
    real_aligned_alloc = dlsym(RTLD_NEXT, "aligned_alloc");
    real_posix_memalign = dlsym(RTLD_NEXT, "posix_memalign");
    unsetenv("LD_PRELOAD");
    count = 0;
    real_malloc = dlsym(RTLD_NEXT, "malloc");
}

static uint64_t mixed(uint64_t hash, uint64_t with)
{
    hash = (hash ^ with) * 0x9e3779b97f4a7c15u;
    return hash ^ hash >> 29;
}

// Returns 1 if the allocation with this number from its place in the code is tried, of all allocations from this place.
static int is_chosen(uint64_t number, uint64_t all)
{
    return number <= 4 || number == all || (number & (number - 1)) == 0 || mixed(number, all) % all < 4;
}

// Returns how many allocations of all places are tried.
static uint64_t count_of_chosen(void)
{
    uint64_t sum = 0;
    for (uint64_t n = 0; n < PLACES; n++)
        for (uint64_t number = 1; number <= places[n].seen; number++)
            sum += is_chosen(number, places[n].seen);
    return sum;
}

__attribute__((destructor)) static void end(void)
{
    FILE *file;
    if (is_copy)
        return;
    // The allocations below don't count.
    is_copy = 1;
    if (*counted && (file = fopen(counted, "w"))) {
        fprintf(file, "%lu %lu\n", count, places ? count_of_chosen() : count);
        for (uint64_t n = 0; places && n < PLACES; n++)
            if (places[n].seen)
                fprintf(file, "%lx %lu\n", places[n].hash, places[n].seen);
        fclose(file);
    }
    if (*told && (file = fopen(told, "w"))) {
        for (uint64_t n = 0; n < answered; n++) {
            fprintf(file, "%lu %lu %d %lu\n", answers[n].first, answers[n].times, answers[n].status, answers[n].bytes);
            fwrite(texts + answers[n].from, 1, answers[n].bytes, file);
            fputc('\n', file);
        }
        fprintf(file, "%lu %.3f\n", tried, micros / 1e6);
        fclose(file);
    }
}

// Returns 1 if an address comes after a call of this function, or of any function if it is NULL. A call through a register or through
// memory counts, too.
static int is_behind_call(const unsigned char *back, const unsigned char *function)
{
    int32_t far;
    if (back[-5] == 0xe8) {
        memcpy(&far, back - 4, sizeof far);
        return !function || back + far == function;
    }
    return (back[-2] == 0xff && (back[-1] & 0xf8) == 0xd0) || (back[-3] == 0x41 && back[-2] == 0xff && (back[-1] & 0xf8) == 0xd0) ||
        (back[-3] == 0xff && (back[-2] & 0xf8) == 0x50) || (back[-4] == 0x41 && back[-3] == 0xff && (back[-2] & 0xf8) == 0x50) ||
        (back[-6] == 0xff && back[-5] == 0x15);
}

// Returns the hash of the program's place in the code.
static uint64_t here(void)
{
    uint64_t hash = 1;
    const uintptr_t *at = __builtin_frame_address(0), *last = __libc_stack_end;
    const unsigned char *function = NULL;
    for (; at < last; at++) {
        const unsigned char *back = (const unsigned char *)*at;
        if (back <= code + 6 || back >= behind_code || !is_behind_call(back, function))
            continue;
        hash = mixed(hash, back - code);
        function = function_of(back);
    }
    return hash | 1;
}

// Records an answer once, and counts it.
static void keep(int status)
{
    uint64_t hash = mixed(7, status), n;
    for (n = 0; n < page->bytes; n++)
        hash = (hash ^ (unsigned char)page->text[n]) * 0x100000001b3u;
    for (n = 0; n < answered; n++)
        if (answers[n].hash == hash && answers[n].bytes == page->bytes && answers[n].status == status &&
            !memcmp(texts + answers[n].from, page->text, page->bytes))
            break;
    if (n == answered) {
        if (n == ANSWERS || kept + page->bytes > KEPT)
            _exit(99);
        answers[n] = (struct answer){ .hash = hash, .first = count, .from = kept, .bytes = page->bytes, .status = status };
        memcpy(texts + kept, page->text, page->bytes);
        kept += page->bytes;
        answered++;
    }
    answers[n].times++;
}

// Starts a copy and waits for it. Returns 1 in the copy, and 0 in the program.
static int goes_on_as_copy(void)
{
    off_t at[13];
    struct rusage used;
    int status = -1, file;
    pid_t copy;
    // Both share the positions of their open files.
    for (file = 3; file < 16; file++)
        at[file - 3] = lseek(file, 0, SEEK_CUR);
    page->bytes = 0;
    copy = syscall(SYS_clone, SIGCHLD, 0, 0, 0, 0);
    if (copy == 0) {
        struct itimerval limit = { .it_value.tv_sec = seconds };
        is_copy = 1;
        setitimer(ITIMER_VIRTUAL, &limit, NULL);
        return 1;
    }
    if (copy < 0 || wait4(copy, &status, 0, &used) != copy)
        _exit(99);
    micros += used.ru_utime.tv_sec * 1000000 + used.ru_utime.tv_usec + used.ru_stime.tv_sec * 1000000 + used.ru_stime.tv_usec;
    for (file = 3; file < 16; file++)
        if (at[file - 3] >= 0)
            lseek(file, at[file - 3], SEEK_SET);
    tried++;
    keep(status);
    return 0;
}

static int is_refused(void)
{
    int is_tried;
    if (is_copy || !real_malloc)
        return 0;
    count++;
    is_tried = *told && count >= from && (count - from) % step == 0;
    if (places) {
        struct place *place = place_of(here());
        place->seen++;
        if (by_place)
            is_tried = is_tried && is_chosen(place->seen, place->all ? place->all : 1) && chosen++ % every == 0;
    }
    if (!is_tried || !goes_on_as_copy())
        return 0;
    errno = ENOMEM;
    return 1;
}

// Records what a copy writes to standard error. Drops what it writes to standard output.
ssize_t write(int file, const void *bytes, size_t length)
{
    if (!is_copy || !page || (file != 1 && file != 2))
        return real_write(file, bytes, length);
    if (file == 2) {
        if (length > LONGEST - page->bytes)
            _exit(98);
        memcpy(page->text + page->bytes, bytes, length);
        page->bytes += length;
    }
    return length;
}

void *malloc(size_t size)
{
    if (!real_malloc)
        return ((void *(*)(size_t))dlsym(RTLD_NEXT, "malloc"))(size);
    return is_refused() ? NULL : real_malloc(size);
}
