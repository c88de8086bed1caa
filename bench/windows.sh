#!/usr/bin/env bash
# Measures runs by windows beside serial ones, over guest programs of about 2 * 10^9 steps each:
#
#     bench/windows.sh [ratios] [TURNS]
#     bench/windows.sh options [TURNS]
#     bench/windows.sh memory [TURNS]
#     bench/windows.sh live [TURNS]
#
# Each figure is of the best of TURNS runs (1 where none is said) by the time that passed. Prints a line for each tool of cache, blocks,
# mix and calls and each guest:
#
#     bare       seconds of the guest without a tool (`guest_bench run`)
#     serial     seconds of `superpin run --by serial --tool TOOL`
#     windows    seconds of `superpin run --tool TOOL`, with all defaults
#     r          serial / bare
#     speed-up   serial / windows
#     limit      min(r, p * r / (1 + r)) with p processors: no run by windows takes less than the bare time, which its master needs, nor,
#                where its slices go as fast as the serial run, less than the bare and the serial time together over p
#     of limit   speed-up / limit
#     busy       how many processors the run by windows kept busy: its processor time / its wall time
#     MB         the most memory of the run by windows, in 1,000,000 bytes
#
# With `options` one guest under one tool is run with --limit 1 to 32 and with --msec 5 to 500, all else by default, and with `memory` a
# guest that writes 16,000 pages over and over, serially and with --limit 8 and 32. Of these the line has the number of slices, too. With
# `live` each guest is run under cache and under blocks serially, by windows, and live with 1 to 4 workers. The reports are compared
# with that of the serial run.
#
# The programs in out/ are run as they stand: `rt ci guest_bench superpin` makes them; SUPERPIN, SUPERPIN_LIVE and GUEST_BENCH may name others. With
# LENGTH=middle the guests are four times shorter, and with LENGTH=short some twenty times. Needs guest/superpin-cc, GNU time (/usr/bin/time), awk and bash.
set -eu
export LC_ALL=C

bench=$(cd "$(dirname "$0")" && pwd)
top=$(dirname "$bench")
superpin=${SUPERPIN:-$top/crates/superpin/out/superpin}
superpin_live=${SUPERPIN_LIVE:-$top/crates/superpin_live/out/superpin_live}
guest_bench=${GUEST_BENCH:-$top/crates/guest_bench/out/guest_bench}

# Ends: says why.
fail() {
    echo "windows.sh: $1" >&2
    exit 1
}

mode=ratios
case ${1:-} in
    ratios | options | memory | live) mode=$1; shift ;;
esac
turns=${1:-1}
[[ $# -le 1 && $turns =~ ^[1-9][0-9]*$ ]] || fail 'call it as bench/windows.sh [ratios | options | memory | live] [TURNS]'
programs=("$superpin" "$guest_bench")
[ "$mode" != live ] || programs=("$superpin" "$superpin_live")
for program in "${programs[@]}"; do
    [ -x "$program" ] || fail "there is no $program; make it by: rt ci superpin superpin_live guest_bench"
done
[ -x /usr/bin/time ] || fail 'there is no /usr/bin/time; install it by: apt-get install time'

folder=$(mktemp -d)
trap 'rm -rf "$folder"' EXIT
trap 'exit 1' HUP INT TERM

# Compiles a guest, with its numbers set.
compile() {
    local name=$1 source=$2
    shift 2
    "$top/guest/superpin-cc" -O2 "$@" -o "$folder/$name" "$top/$source" || fail "$source was not compiled"
}

# Runs a command in turns; sets `wall`, `busy` and `size` to the seconds that passed, the processors that were busy and the most memory in
# MB, of the turn that took the least time. Leaves the report of the last turn in the folder under the name given.
measure() {
    local report=$folder/$1 turn
    shift
    : >"$folder/turns"
    for ((turn = 0; turn < turns; turn++)); do
        /usr/bin/time -f '%e %U %S %M' -o "$folder/spent" "$@" >"$folder/output" 2>"$report" || {
            cat "$report" >&2
            fail "$* did not end with 0"
        }
        tail -n 1 "$folder/spent" >>"$folder/turns"
    done
    read -r wall busy size <<<"$(sort -n "$folder/turns" | awk '
        NR == 1 { passed = $1 > 0 ? $1 : 0.01; printf "%.2f %.2f %.0f\n", passed, ($2 + $3) / passed, $4 * 1.024 / 1000 }')"
}

# Runs a guest with a tool by these words, and leaves the report under the name given.
run_tool() {
    local report=$1 tool=$2 guest=$3
    shift 3
    measure "$report" "$superpin" run "$@" --budget 1000000000000 --tool "$tool" "$folder/$guest"
}

# The same by windows, with the lines of slices: compares the report without these with the serial one, and sets `slices` to their number.
run_sliced() {
    run_tool sliced "$@" --slices
    slices=$(grep -c '^slice ' "$folder/sliced" || true)
    grep -v '^slice ' "$folder/sliced" >"$folder/windows"
    compare "$2" "$1"
}

# Ends where the report of a run by windows isn't that of the serial run.
compare() {
    cmp -s "$folder/serial" "$folder/windows" || fail "the report of $1 under $2 by windows is not that of the serial run"
}

# The ratios of each tool over each guest.
show_ratios() {
    local guest tool processors serial
    local -A bare=()
    processors=$(nproc)
    echo "$processors processors"
    for guest in matrix sieves digest; do
        measure bare "$guest_bench" run "$folder/$guest"
        bare[$guest]=$wall
        echo "$guest: $(awk '$1 == "icount" { print $2 }' "$folder/bare") steps"
    done
    printf '%-8s %-8s %8s %8s %8s %6s %9s %6s %9s %6s %6s\n' tool guest bare serial windows r speed-up limit 'of limit' busy MB
    for tool in cache blocks mix calls; do
        for guest in matrix sieves digest; do
            run_tool serial "$tool" "$guest" --by serial
            serial=$wall
            run_tool windows "$tool" "$guest"
            compare "$guest" "$tool"
            awk -v tool="$tool" -v guest="$guest" -v bare="${bare[$guest]}" -v serial="$serial" -v windows="$wall" -v busy="$busy" \
                -v size="$size" -v processors="$processors" 'BEGIN {
                    r = serial / bare
                    limit = processors * r / (1 + r)
                    if (limit > r) limit = r
                    printf "%-8s %-8s %8.2f %8.2f %8.2f ", tool, guest, bare, serial, windows
                    printf "%6.2f %9.2f %6.2f %9.2f ", r, serial / windows, limit, serial / windows / limit
                    printf "%6.2f %6.0f\n", busy, size
                }'
        done
    done
}

# A line of a run with options: the words, and the seconds of the serial run.
show_line() {
    printf '%-14s %8.2f %9.2f %6.2f %8d %6d\n' "$1" "$wall" "$(awk -v a="$2" -v b="$wall" 'BEGIN { print a / b }')" "$busy" "$slices" "$size"
}

# A serial run of a guest with a tool, and runs by windows, each with one of these pairs of words.
show_options() {
    local tool=$1 guest=$2 serial words
    shift 2
    echo "$guest under $tool, $(nproc) processors"
    printf '%-14s %8s %9s %6s %8s %6s\n' words seconds speed-up busy slices MB
    run_tool serial "$tool" "$guest" --by serial
    serial=$wall
    slices=1
    show_line '--by serial' "$serial"
    for words in "$@"; do
        # shellcheck disable=SC2086 # a pair of words
        run_sliced "$tool" "$guest" $words
        show_line "$words" "$serial"
    done
}

# Each guest serially, by windows, and live with 1 to 4 workers, under two tools.
show_live() {
    local guest tool workers serial times
    echo "$(nproc) processors; seconds"
    printf '%-8s %-8s %8s %8s %8s %8s %8s %8s\n' tool guest serial windows live-1 live-2 live-3 live-4
    for tool in cache blocks; do
        for guest in matrix sieves digest; do
            run_tool serial "$tool" "$guest" --by serial
            serial=$wall
            run_tool windows "$tool" "$guest"
            compare "$guest" "$tool"
            times=($wall)
            for workers in 1 2 3 4; do
                superpin=$superpin_live run_tool windows "$tool" "$guest" --workers "$workers"
                compare "$guest" "$tool"
                times+=("$wall")
            done
            printf '%-8s %-8s %8s %8s %8s %8s %8s %8s\n' "$tool" "$guest" "$serial" "${times[@]}"
        done
    done
}

case ${LENGTH:-long} in
    long) size=660 rounds=20 blocks=140000 page_rounds=200 ;;
    middle) size=416 rounds=5 blocks=35000 page_rounds=50 ;;
    short) size=240 rounds=1 blocks=7000 page_rounds=10 ;;
    *) fail 'LENGTH is long, middle or short' ;;
esac
case $mode in
    ratios)
        compile matrix guest/examples/matrix.c "-DSIZE=$size"
        compile sieves bench/programs/sieves.c "-DROUNDS=$rounds"
        compile digest bench/programs/digest.c "-DBLOCKS=$blocks"
        show_ratios
        ;;
    live)
        compile matrix guest/examples/matrix.c "-DSIZE=$size"
        compile sieves bench/programs/sieves.c "-DROUNDS=$rounds"
        compile digest bench/programs/digest.c "-DBLOCKS=$blocks"
        show_live
        ;;
    options)
        compile sieves bench/programs/sieves.c "-DROUNDS=$rounds"
        show_options blocks sieves '--limit 1' '--limit 2' '--limit 4' '--limit 8' '--limit 16' '--limit 32' '--msec 5' '--msec 50' '--msec 500'
        ;;
    memory)
        compile pages bench/programs/pages.c "-DROUNDS=$page_rounds"
        show_options icount pages '--limit 8' '--limit 32'
        ;;
esac
