#!/usr/bin/env bash
# Prints the path of the program kyua. That is the program that this checkout built, if it was built from the current sources. Otherwise
# it is the program in dist/, if that was built from these sources and runs here. Otherwise the script builds the program.
# Standard error gets what it does, and why. Exits with 0, or with 2 if the build fails or a tool is missing.
set -eu -o pipefail
top=$(cd "$(dirname "$0")/.." && pwd)
. "$top/scripts/sources.sh"
explain "$@"

find_tools || exit 2
if is_built; then
  echo "$built"
elif "$top/scripts/dist.sh" fits; then
  echo "$top/dist/kyua"
else
  find_rt || exit 2
  echo 'So it is being built from these sources now, which takes about half an hour.' >&2
  "$top/build.sh" >&2
  echo "$built"
fi
