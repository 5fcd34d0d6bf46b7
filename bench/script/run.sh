#!/bin/sh
# Measures the time and the memory that reading a script of 1 MiB takes.
set -eu
. "$(dirname "$0")/../scratch.sh"
make_checkout script kt_script kt_base kt_script
build_bench script
"$bench"
