#!/usr/bin/env bash
# Checks that a timeout of two seconds takes at most three while 6,000 files are removed, each in a millisecond. A pause counts the time of
# its removals. A removal that only counts its steps would block the run for 5,000 of them.
# Exits with 0 if that holds, else with 1. KYUA names the program to measure; otherwise it is the one that kyua.sh runs. The script needs a C
# compiler and a quiet machine.
set -eu
# On a slow disk, the files would be created after the timeout.
[ -n "${TMPDIR-}" ] || [ ! -w /dev/shm ] || export TMPDIR=/dev/shm
. "$(dirname "$0")/../scratch.sh"
find_program
cd "$scratch"
${CC:-cc} -O2 -shared -fPIC -o slow.so -x c - << 'C'
#include <fcntl.h>
#include <unistd.h>
int unlink(const char *path)
{
    usleep(1000);
    return unlinkat(AT_FDCWD, path, 0);
}
C
mkdir work
printf '#!/bin/sh\nexec sleep 10\n' > sleeper
printf '#!/bin/sh\nseq 6000 | xargs touch\n' > files
chmod +x sleeper files
cat > Kyuafile << 'K'
syntax(2)
test_suite('s')
plain_test_program{name='sleeper', timeout=2}
plain_test_program{name='files'}
K
LD_PRELOAD=$scratch/slow.so "$program" -v parallelism=8 test -r x.db --work="$scratch/work" > out || [ $? = 1 ]
[ -z "$(ls -A work)" ]
grep -q '^files:main  ->  passed  \[[01]\.' out || { cat out; echo 'the files are created too late for this check'; exit 1; }
millis=$(sed -n 's/^sleeper:main  ->  broken: Test case timed out  \[0*\([0-9][0-9]*\)\.\([0-9]*\)s\]$/\1\2/p' out)
echo "a timeout of 2 s takes ${millis:-no} ms while files are removed in a millisecond each; at most 3000 are allowed"
[ "${millis:-3001}" -le 3000 ]
