/* A test program that costs next to nothing. Its name says which: `plain` returns 0, `tap` prints three tests, `atf` has four
   cases, `loud` and `brief` are plain ones that print 1 MiB and 10 KiB, and `ends.5` is one that lasts from nine tenths of 5
   milliseconds to all of them, and tells the file NOTICES when it ends (notice.h). */
#include <fcntl.h>
#include <stdlib.h>
#include <string.h>
#include <unistd.h>
#include "notice.h"

static const char tests[] = "1..3\nok 1\nok 2\nok 3\n";
static const char list[] = "Content-Type: application/X-atf-tp; version=\"1\"\n\n"
                           "ident: one\n\nident: two\n\nident: three\n\nident: four\n";
static char lines[1 << 16];

/* Writes a text, and returns 0 if all of it was taken. */
static int say(int file, const char *text, size_t length)
{
    return write(file, text, length) != (ssize_t)length;
}

/* Writes lines of 64 bytes: so many parts of this length, which is at most 64 KiB. */
static int say_lines(int parts, size_t length)
{
    memset(lines, 'x', length);
    for (size_t end = 63; end < length; end += 64)
        lines[end] = '\n';
    while (parts-- > 0)
        if (say(1, lines, length) != 0)
            return 1;
    return 0;
}

/* Sleeps for a time that depends on the process alone. */
static int end_late(double milliseconds)
{
    int file = open_notices();
    long length = milliseconds * (9216 + getpid() * 619 % 1024) / 10240 * 1000000;
    struct timespec time = {length / 1000000000, length % 1000000000};
    nanosleep(&time, NULL);
    give_notice(file, getpid());
    return 0;
}

/* Prints the list, or writes the result of a case. */
static int do_as_atf(char **words)
{
    for (; *words; words++)
        if (strcmp(*words, "-l") == 0)
            return say(1, list, sizeof list - 1);
        else if (strncmp(*words, "-r", 2) == 0)
            return say(open(*words + 2, O_WRONLY | O_CREAT | O_TRUNC, 0600), "passed\n", 7);
    return 1;
}

int main(int count, char **words)
{
    const char *slash = strrchr(words[0], '/'), *name = slash ? slash + 1 : words[0];
    (void)count;
    if (strcmp(name, "tap") == 0)
        return say(1, tests, sizeof tests - 1);
    if (strcmp(name, "atf") == 0)
        return do_as_atf(words + 1);
    if (strncmp(name, "ends.", 5) == 0)
        return end_late(atof(name + 5));
    if (strcmp(name, "brief") == 0)
        return say_lines(1, 10240);
    return strcmp(name, "loud") == 0 ? say_lines(16, sizeof lines) : 0;
}
