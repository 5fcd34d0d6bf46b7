#!/bin/sh
# Measures the time and the memory that reading a TAP stream of 16 MiB in parts of 64 KiB takes.
set -eu
. "$(dirname "$0")/../scratch.sh"
make_checkout tap kt_claim kt_base kt_claim
build_bench tap
"$bench"
