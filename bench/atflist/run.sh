#!/bin/sh
# Measures the time and the memory of lists of up to 1 MiB, with many short blocks and with one long block. A list that is twice as long
# should take about twice the time.
set -eu
. "$(dirname "$0")/../scratch.sh"
make_checkout atflist 'kt_base kt_atflist' kt_base kt_script kt_config kt_metadata kt_atflist
build_bench atflist
"$bench"
