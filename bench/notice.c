/* To be preloaded into a runner: when `waitpid` tells of an end, that is written to the file NOTICES (notice.h). */
#define _GNU_SOURCE
#include <sys/syscall.h>
#include <sys/types.h>
#include "notice.h"

pid_t waitpid(pid_t child, int *status, int options)
{
    static int file = -2;
    pid_t ended = syscall(SYS_wait4, child, status, options, NULL);
    if (file == -2)
        file = open_notices();
    if (ended > 0)
        give_notice(file, ended);
    return ended;
}
