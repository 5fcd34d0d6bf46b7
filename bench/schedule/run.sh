#!/bin/sh
# Measures the cost of a case in plans of 10,000 and 100,000 cases, with a launcher that returns at once.
# `rt try` runs the program without a proof, since nothing is proved of the launcher.
set -eu
. "$(dirname "$0")/../scratch.sh"
make_checkout schedule 'kt_base kt_claim kt_sched' kt_base kt_claim kt_status kt_sched
cd "$scratch/crates/schedule_bench"
rt try
