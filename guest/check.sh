#!/usr/bin/env bash
# Compiles the examples and runs each under superpin and, where it is installed, under qemu-riscv32:
#
#     guest/check.sh
#
# Compares the standard output, the status and, under superpin, the last line of the report with the table of rows.sh, and the
# `icount` of superpin with the number that qemu counts, where its plugin count.c can be built. Prints a line for each run
# that differs and a last line with the numbers of both. SUPERPIN and SUPERPIN_LIVE are the programs that are run, by default the
# launchers at the top of the repository. Where something is missing it says so, and what it runs without.
. "$(dirname "$0")/rows.sh"
ways=(serial windows live)

# Sets `qemu` to qemu and `plugin` to its counting plugin; each stays empty where it cannot be had.
find_qemu() {
    local version
    plugin=''
    qemu=$(command -v qemu-riscv32) || {
        note "there is no qemu-riscv32, so only superpin is run; install it by: apt-get install qemu-user"
        return 0
    }
    for version in 1 2 3 4 5; do
        cc -shared -fPIC -O2 -D VERSION=$version -o "$folder/count.so" "$guest/count.c" 2>"$folder/errors" || break
        if "$qemu" -plugin "$folder/count.so,out=$folder/count" "$guest/out/hello" >"$folder/output" 2>&1 && [ -s "$folder/count" ]; then
            plugin=$folder/count.so
            return 0
        fi
    done
    note "the plugin of qemu could not be built or is not taken, so icount is not compared"
}

# Counts a run, and says how it differs, where it does: its name, the answer that is due, the one that came.
count_run() {
    if [ "$2" = "$3" ] && cmp -s "$folder/expected" "$folder/output"; then
        passed=$((passed + 1))
        return
    fi
    failed=$((failed + 1))
    echo "$1: $3, expected $2; the output differs so from the expected one:"
    diff "$folder/expected" "$folder/output" || true
}

# Runs an example under qemu, with the words behind the program's name; sets `answer` to the status.
run_by_qemu() {
    answer=0
    # In a shell of its own, so that what a shell says of a signal is dropped.
    (exec 2>/dev/null; env -i "$qemu" ${plugin:+-plugin "$plugin,out=$folder/count"} "$@" <"$folder/input" >"$folder/output"; exit $?) ||
        answer=$?
}

# Runs an example with the input and the arguments, under superpin each way and, where the first word is `both`, under qemu.
# The last line of the report is a pattern of the shell.
check() {
    local by=$1 name=$2 status=$3 line=$4 output=$5 input=$6 way answer last counted due
    shift 6
    printf '%b' "$input" >"$folder/input"
    printf '%b' "$output" >"$folder/expected"
    rm -f "$folder/count"
    if [ "$by" = both ] && [ -n "$qemu" ]; then
        run_by_qemu "$guest/out/$name" "$@"
        count_run "$name under qemu" "status $status" "status $answer"
    fi
    for way in "${ways[@]}"; do
        answer=0
        run_way "$way" "$guest/out/$name" "$@" <"$folder/input" >"$folder/output" 2>"$folder/report" || answer=$?
        last=$(tail -n 1 "$folder/report")
        # shellcheck disable=SC2254 # a pattern
        case $last in
            $line) last='' ;;
            *) last=" and the last line '$last', not '$line'" ;;
        esac
        due="status $status"
        counted=''
        if [ -s "$folder/count" ]; then
            due="$due, icount $(cat "$folder/count")"
            counted=", icount $(awk '$1 == "icount" { count = $2 } END { print count }' "$folder/report")"
        fi
        count_run "$name under superpin, $way" "$due" "status $answer$counted$last"
    done
}

find_superpin
build
find_qemu
run_rows
finish
