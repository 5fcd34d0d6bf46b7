#!/usr/bin/env bash
# Measures how long trees of 250, 500 and 1,000 Kyuafiles take to load from memory, and a tree of 1,000 from files. A Kyuafile has ten
# programs.
# Twice as many files should take about twice the time. Then it measures another `kyua list` on the same files, if one is installed. It
# works in a temporary copy of the checkout.
set -eu
. "$(dirname "$0")/../scratch.sh"
make_checkout suite 'kt_base kt_metadata kt_suite' kt_base kt_script kt_config kt_metadata kt_suite
build_bench suite

# A root Kyuafile that includes 1,000 others, each with ten programs.
mkdir "$scratch/tree"
cd "$scratch/tree"
echo 'syntax(2)' > Kyuafile
for directory in $(seq 0 999); do
  mkdir "directory_$directory"
  echo "include('directory_$directory/Kyuafile')" >> Kyuafile
  {
    echo 'syntax(2)'
    echo "test_suite('bench')"
    for program in $(seq 0 9); do
      echo "plain_test_program{name='program_$program', timeout=60, required_user='root'}"
      : > "directory_$directory/program_$program"
    done
  } > "directory_$directory/Kyuafile"
done

"$bench"
if other=$(command -v kyua); then
  echo "$other list, of the same files, with its start and its printing:"
  for _ in 1 2 3; do
    start=$(date +%s%N)
    "$other" list -k Kyuafile > "$scratch/listed"
    end=$(date +%s%N)
    echo "$(wc -l < "$scratch/listed") cases in $(((end - start) / 1000)) us"
  done
fi
