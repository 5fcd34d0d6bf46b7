#!/bin/sh
# Measures how fast configurations of up to 1 MiB and 20,000 variables are read and searched.
set -eu
. "$(dirname "$0")/../scratch.sh"
make_checkout config 'kt_base kt_config' kt_base kt_script kt_config
build_bench config
"$bench"
