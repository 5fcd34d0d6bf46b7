#!/usr/bin/env bash
# Runs the program kyua with the arguments given, in the caller's directory. scripts/program.sh prints its path, and builds it if there
# is none. Exits with the status of the program, or with 2 if there is no program and it can't be built.
set -eu
program=$("$(dirname "$(readlink -f "$0")")/scripts/program.sh")
exec "$program" "$@"
