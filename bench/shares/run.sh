#!/bin/sh
# Measures a suite of 60 seconds in 1, 2 and 4 shares. Each row has the seconds of the longest share, if the programs are dealt in turn
# and if they are divided by time. Then it has the seconds of `kyua-tools cluster` by GNU parallel and by Slurm. A tool that isn't installed is skipped.
# The script needs sqlite3.
set -eu
. "$(dirname "$0")/../scratch.sh"
find_program
KYUA=$program
PARALLELISM=1
export KYUA PARALLELISM
tools=$here/tools
cd "$scratch"
# 16 programs that sleep, so processors don't matter.
{
    echo 'syntax(2)'
    echo "test_suite('shares')"
    for seconds in 9 5 7 1 12 4 6 1 4 1 3 1 2 1 2 1; do
        number=$((${number-0} + 1))
        printf '#!/bin/sh\nsleep %s\n' $seconds > p$number
        chmod +x p$number
        echo "plain_test_program{name='p$number'}"
    done
} > Kyuafile
KYUAFILE=$PWD/Kyuafile
export KYUAFILE
mkdir nights
"$program" test -r nights/2026-01-01.db > log
# longest WAY SHARES [HISTORY]: prints the seconds from the start of the shares, which run at once, to the end of the last.
longest() {
    from=$(date +%s%N)
    for number in $(seq "$2"); do
        mkdir -p "$1.$2/$number"
        (cd "$1.$2/$number" && "$tools/share" "$number" "$2" ${3+"$3"} > log) &
    done
    wait
    echo $((($(date +%s%N) - from) / 1000000)) > "$1.$2.time"
}
# clustered ENGINE SHARES: records the milliseconds that cluster takes with this engine.
clustered() {
    mkdir "$1.$2"
    cp nights/2026-01-01.db "$1.$2"
    from=$(date +%s%N)
    CLUSTER_DIRECTORY=$1.$2 "$tools/cluster" "$2" "$1" > "$1.$2.log" 2>&1
    echo $((($(date +%s%N) - from) / 1000000)) > "$1.$2.time"
}
# seconds FILE: prints the seconds of this measurement, if it exists.
seconds() {
    [ ! -e "$1" ] || awk '{ printf "%.1f", $1 / 1000 }' "$1"
}
for shares in 1 2 4; do
    longest turn $shares &
    longest time $shares "$PWD/nights" &
    ! command -v parallel > found || clustered parallel $shares &
    ! sinfo > found 2>&1 || clustered slurm $shares &
    wait
    echo "| $shares | $(seconds turn.$shares.time) | $(seconds time.$shares.time) | $(seconds parallel.$shares.time) | $(seconds slurm.$shares.time) |"
done
