#!/usr/bin/env bash
# Measures the ring: how many empty jobs a second go through it, each published, claimed, deposited and collected once.
#
#     bench/ring.sh [PROGRAM] [JOBS] [SLOTS]
#
# PROGRAM is the proved program ring_bench, by default the one that `rt run` in crates/ring_bench makes; JOBS is 1000000 and
# SLOTS 8 where none is given. Prints a line for the lead alone, which claims the jobs itself, and for 1, 2 and 4 workers in
# threads of their own beside it: the million jobs a second, the best of five runs by the time that passed. The start of the
# program and of its threads is part of that time. Needs awk and bash.
set -eu
export LC_ALL=C

top=$(dirname "$(cd "$(dirname "$0")" && pwd)")
program=${1:-$top/crates/ring_bench/out/ring_bench}
jobs=${2:-1000000}
slots=${3:-8}
if [ ! -x "$program" ]; then
    echo "ring.sh: there is no $program; make it by: cd $top/crates/ring_bench && rt run -- 1000 2 8" >&2
    exit 1
fi

for workers in 0 1 2 4; do
    best=
    for _ in 1 2 3 4 5; do
        before=$(date +%s%N)
        if [ "$("$program" "$jobs" "$workers" "$slots")" != "jobs $jobs merged $jobs" ]; then
            echo "ring.sh: not all jobs came back" >&2
            exit 1
        fi
        passed=$(($(date +%s%N) - before))
        if [ -z "$best" ] || [ "$passed" -lt "$best" ]; then
            best=$passed
        fi
    done
    awk -v jobs="$jobs" -v workers="$workers" -v slots="$slots" -v best="$best" \
        'BEGIN { printf "workers %d slots %d: %.2f million jobs a second\n", workers, slots, jobs * 1000 / best }'
done
