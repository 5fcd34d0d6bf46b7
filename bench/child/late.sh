# Functions that measure how late a runner notices the ends of its cases. They need a C compiler, and $here, $scratch and $program
# (scratch.sh). A case ends.N takes between nine tenths of N milliseconds and N milliseconds.
cc -O2 -o "$scratch/ends" "$here/bench/case.c"
cc -O2 -shared -fPIC -o "$scratch/notice.so" "$here/bench/notice.c"

#   ends_of MILLISECONDS: creates the test program ends.MILLISECONDS
ends_of() {
  ln -f "$scratch/ends" "$scratch/ends.$1"
}

#   late WIDTH MICROSECONDS: runs the suite of the Kyuafile, and checks that the mean delay of its ends is at most MICROSECONDS
late() {
  rm -f notices
  NOTICES="$scratch/notices" LD_PRELOAD="$scratch/notice.so" "$program" -v parallelism="$1" test -r late.db --work="$scratch" > out
  mean=$(awk '
    $1 in ended { late += $2 - ended[$1]; count++ }
    { ended[$1] = $2 }
    END { printf "%d", late / count / 1000 }' notices)
  echo "width $1: the mean delay of ends is $mean microseconds; at most $2 are allowed"
  [ "$mean" -le "$2" ]
}
