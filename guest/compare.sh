#!/usr/bin/env bash
# Runs the examples serially, by windows and live, and compares them:
#
#     guest/compare.sh [--slices]
#
# Each run of check.sh is made under each of the six tools, serially and then in the ways below, in which the clock cuts the run each
# millisecond; in the second of windows and of live each call that goes on cuts it, too. The standard output, the exit status and the
# standard error, with the report on it, must be the same byte for byte. Where an example reads the clock its steps may differ from run to
# run, so its report is compared without the lines of the tool.
#
# With --slices the runs under icount that are cut are made once more, with that option: the lines of slices must stand behind the same
# report and be numbered from 0; each but the last has one whole match, the last none, and none more matches of a later test than of an
# earlier one; and together they have as many steps as icount says of the serial run or, where an example reads the clock, of this run.
#
# Prints what differs, and a last line with the numbers of the comparisons. SUPERPIN and SUPERPIN_LIVE are the programs that are run, by
# default the launchers at the top of the repository. Where something is missing it says so, and runs nothing.
. "$(dirname "$0")/rows.sh"
tools=(icount bcount mix blocks calls cache)
often='--msec 1 --poll 16'
calls='--msec 1 --poll 1 --records 1 --frames 64 --limit 3'
ways=("windows $often" "windows $calls" "live $often" "live $calls --workers 2")
clocked=' library '
slice_count=0
sliced_runs=0

if [ $# -gt 1 ] || [ "${1:---slices}" != --slices ]; then
    echo 'compare.sh: call it as guest/compare.sh [--slices]' >&2
    exit 1
fi
slices=${1:-no}

# Runs an example by these words, the first of which is the way; leaves KIND.out, KIND.err and KIND.status in the folder, of the kind
# serial or cut.
run_so() {
    local kind=$1 status=0
    shift
    run_way "$@" <"$folder/input" >"$folder/$kind.out" 2>"$folder/$kind.err" || status=$?
    echo "$status" >"$folder/$kind.status"
}

# Drops the lines of a tool from a report on the standard input.
without_tool() {
    grep -Ev '^(icount|bcount|mix|block|call|cache) ' || true
}

# Compares what the two runs left, counts that, and shows a part of what differs.
compare() {
    local what=$1 part is_same=yes
    for part in out err status; do
        cmp -s "$folder/serial.$part" "$folder/cut.$part" && continue
        is_same=no
        echo "$what: its $part differs so from the serial run's:"
        diff "$folder/serial.$part" "$folder/cut.$part" | head -n 6 || true
    done
    count "$is_same"
}

# Counts one as passed or failed.
count() {
    if [ "$1" = yes ]; then passed=$((passed + 1)); else failed=$((failed + 1)); fi
}

# Tells what is wrong with the lines of slices at the end of cut.err, whose steps together are the number given; takes them away.
take_slices() {
    awk -v steps="$1" '
        /^slice / {
            if ($2 != lines + 0) wrong = "a line has the number " $2 " in place of " lines + 0
            if (lines > 0 && last_whole != 1) wrong = "slice " lines - 1 " has " last_whole " whole matches"
            if ($5 < $6 || $6 < $7 || $7 < $8) wrong = "slice " $2 " has more of a later test than of an earlier one"
            if (NF != 8) wrong = "a line has " NF " words"
            lines++
            sum += $3
            last_whole = $8
            last_hits = $5 + $6 + $7 + $8
            next
        }
        lines > 0 { wrong = "a line stands behind those of slices" }
        { print >other }
        $1 == "icount" { counted = $2 }
        $1 == "end" { is_ended = 1 }
        END {
            if (steps == "own") steps = counted
            if (is_ended && lines == 0) wrong = "there is no line of a slice"
            if (!is_ended && lines > 0) wrong = "a run that was refused has lines of slices"
            if (last_hits != 0) wrong = "the last slice has matches"
            if (is_ended && sum != steps) wrong = "the slices have " sum " steps, and the run " steps
            print lines + 0, wrong
        }
    ' other="$folder/rest.err" "$folder/cut.err"
}

# Compares a run with the option --slices with the serial run under icount, and looks at its lines.
compare_slices() {
    local name=$1 way=$2 steps lines wrong
    shift 2
    : >"$folder/rest.err"
    # shellcheck disable=SC2086 # the words of a way
    run_so cut $way --slices "$@"
    case $clocked in
        *" $name "*) steps=own ;;
        *) steps=$(awk '$1 == "icount" { print $2 }' "$folder/serial.err") ;;
    esac
    read -r lines wrong <<<"$(take_slices "$steps")"
    mv "$folder/rest.err" "$folder/cut.err"
    slice_count=$((slice_count + lines))
    sliced_runs=$((sliced_runs + 1))
    [ -z "$wrong" ] || { echo "$name, $way --slices: $wrong"; count no; return; }
    [ "$steps" != own ] || drop_counts
    compare "$name, $way --slices"
}

# Leaves out the lines of the tool in what both runs wrote.
drop_counts() {
    local kind
    for kind in serial cut; do
        without_tool <"$folder/$kind.err" >"$folder/rest.err"
        mv "$folder/rest.err" "$folder/$kind.err"
    done
}

# Makes a row's runs under each tool. What the table says beside the name, the input and the arguments is for check.sh.
check() {
    local name=$2 input=$6 tool way
    shift 6
    printf '%b' "$input" >"$folder/input"
    for tool in "${tools[@]}"; do
        run_so serial serial --tool "$tool" "$guest/out/$name" "$@"
        cp "$folder/serial.err" "$folder/whole.err"
        for way in "${ways[@]}"; do
            cp "$folder/whole.err" "$folder/serial.err"
            # shellcheck disable=SC2086 # the words of a way
            run_so cut $way --tool "$tool" "$guest/out/$name" "$@"
            case $clocked in *" $name "*) drop_counts ;; esac
            compare "$name, $way --tool $tool"
            if [ "$slices" != no ] && [ "$tool" = icount ]; then
                cp "$folder/whole.err" "$folder/serial.err"
                compare_slices "$name" "$way" "$guest/out/$name" "$@"
            fi
        done
    done
}

find_superpin
build
run_rows
[ "$slices" = no ] || echo "$slice_count slices in $sliced_runs runs"
finish
