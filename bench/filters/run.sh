#!/bin/sh
# Measures how fast up to 1,000 filters select among 100,000 cases.
set -eu
. "$(dirname "$0")/../scratch.sh"
make_checkout filters 'kt_base kt_suite' kt_base kt_script kt_config kt_metadata kt_suite
build_bench filters
"$bench"
