#!/usr/bin/env bash
# Checks the examples of crates/kt_rows/data with the program kt_rows. First it proves and links kt_rows, which takes more than an hour
# if none of the crates below it is proved yet.
#
#   rows.sh                 all examples, as the gate checks them: with the arguments in `args`, and compared with `stdout`
#   rows.sh FILE.rows ..    only the examples of these files
#
# The program runs in a copy of that directory, and as nobody if root calls the script.
# Exits with 0 if all examples pass, with 2 if there is no rt, with 3 on wrong arguments, else with another status.
# rt is taken from PATH, else from the kit that RATTLE_KIT names.
set -eu
top=$(cd "$(dirname "$0")/.." && pwd)
. "$top/scripts/sources.sh"
crate=$top/crates/kt_rows
for word; do
  case $word in
    *.rows) [ -f "$crate/data/$word" ] || { echo "rows.sh: there is no file crates/kt_rows/data/$word" >&2; exit 3; } ;;
    *) explain "$@" ;;
  esac
done
find_rt || exit 2
[ -x "$crate/out/kt_rows" ] ||
  echo 'rows.sh: kt_rows is not proved here yet. Proving it and the crates below it may take an hour' >&2
mkdir -p "$crate/out"
# Without arguments the program checks nothing: this proves and links it.
(cd "$crate" && rt run --jobs 1 >/dev/null 2>"$crate/out/build.log") || { tail -20 "$crate/out/build.log" >&2; exit 1; }
room="$(mktemp -d)"
trap 'rm -rf "$room"' EXIT
chmod 711 "$room"
cp "$crate/out/kt_rows" "$room/kt_rows"
cp -r "$crate/data" "$room/data"
drop=()
if [ "$(id -u)" = 0 ]; then
  chown -R 65534:65534 "$room/data"
  drop=(setpriv --reuid=65534 --regid=65534 --clear-groups --no-new-privs)
fi
mapfile -t words <"$crate/args"
wanted="$(cat "$crate/stdout")"
if [ $# -gt 0 ]; then
  words=("$@")
  wanted=""
fi
cd "$room/data"
status=0
found="$(env -i PATH=/usr/local/bin:/usr/bin:/bin HOME="$room/data" TMPDIR="$room/data" LANG=C.UTF-8 \
  timeout 120 "${drop[@]}" "$room/kt_rows" "${words[@]}")" || status=$?
printf '%s\n' "$found"
if [ -n "$wanted" ] && [ "$found" != "$wanted" ]; then
  printf 'expected, from the file stdout:\n%s\n' "$wanted"
  [ "$status" != 0 ] || status=1
fi
exit "$status"
