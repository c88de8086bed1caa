#!/usr/bin/env bash
# Measures superpin beside two interpreters in Rust, over guest programs of about 10^8 steps each:
#
#     bench/run.sh [TURNS]
#     bench/run.sh windows [TURNS]
#     bench/run.sh live [TURNS]
#
# The last two measure runs by windows, and live ones beside these, over three long programs: windows.sh has them and says what it prints.
# The guests are a generated loop and, where guest/superpin-cc works, four programs in C. For each guest a line has the steps a
# second, in millions, each the best of TURNS runs (5 where none is said) by the processor time that they took:
#
#     superpin   `superpin run --by serial`, with the tool that counts instructions
#     run        a guest without a tool, by stretches of steps (`guest_bench run`)
#     step       the same step by step (`guest_bench step`)
#     plain      the plain interpreter of interpreter.rs, which reads each word anew
#     fast       the fast one of fast.rs, whose code is decoded once
#
# and then superpin / plain, run / fast and step / fast. Then each guest has a line for the master of a run by windows with all
# defaults, which makes the cuts and drops the jobs (`guest_bench master`): its steps a second, and the same / run. Then each tool has a line for each guest: the steps a second of `superpin run
# --by serial --tool NAME`, and the same / run. The programs in out/ are run as they stand: `rt ci guest_bench superpin
# superpin_live` makes them. Needs rustc, awk and bash, whose `times`
# counts thousandths of a second.
set -eu
export LC_ALL=C

bench=$(cd "$(dirname "$0")" && pwd)
top=$(dirname "$bench")
case ${1:-} in
    windows) shift; exec "$bench/windows.sh" ratios "$@" ;;
    live) exec "$bench/windows.sh" "$@" ;;
esac
turns=${1:-5}
superpin=$top/crates/superpin/out/superpin
guest_bench=$top/crates/guest_bench/out/guest_bench
for program in "$superpin" "$guest_bench"; do
    if [ ! -x "$program" ]; then
        echo "run.sh: there is no $program; make it by: rt ci superpin guest_bench" >&2
        exit 1
    fi
done

folder=$(mktemp -d)
trap 'rm -rf "$folder"' EXIT
trap 'exit 1' HUP INT TERM

# Named from its own folder, so that the code is the same wherever the repository stands: its place in memory tells in the time.
for name in interpreter fast; do
    (cd "$bench" && exec rustc -O --edition 2024 -o "$folder/$name" "$name.rs")
done

# Compiles an example, with one of its numbers set.
compile() {
    "$top/guest/superpin-cc" -O2 "-D$3" -o "$folder/$1" "$top/$2" 2>"$folder/log" && guests="$guests $1"
}
"$folder/interpreter" make "$folder/loop"
guests=loop
compile quicksort guest/examples/quicksort.c COUNT=187000 &&
    compile sieve guest/examples/sieve.c LIMIT=7200000 &&
    compile matrix guest/examples/matrix.c SIZE=242 &&
    compile digest bench/programs/digest.c BLOCKS=7000 ||
    echo "run.sh: without the programs in C, since guest/superpin-cc said: $(head -n 1 "$folder/log")" >&2

# Runs a command over a guest, and adds to the list GUEST.NAME how many steps it took, and how many it did a second. The steps are those
# that its report says, or `known` where it says none.
measure() {
    list=$folder/$1
    shift
    times >"$folder/before"
    if ! "$@" >"$folder/output" 2>"$folder/report"; then
        echo "run.sh: $* did not end with 0:" >&2
        cat "$folder/report" >&2
        exit 1
    fi
    times >"$folder/after"
    # The second line of `times` is for the processes that have ended, as 0m1.25s 0m0.01s.
    awk -v steps="${known:-0}" '
        function seconds(text,  part) { split(text, part, /[ms]/); return 60 * part[1] + part[2] }
        FNR == 1 { file++ }
        file == 1 && FNR == 2 { spent -= seconds($1) + seconds($2) }
        file == 2 && FNR == 2 { spent += seconds($1) + seconds($2) }
        file == 3 && $1 == "icount" { steps = $2 }
        END { printf "%d %.0f\n", steps, steps / spent }
    ' "$folder/before" "$folder/after" "$folder/report" >>"$list"
}

words="run --by serial --budget 1000000000"
printf '%-10s %12s %9s %6s %6s %6s %6s %15s %10s %11s\n' guest steps superpin run step plain fast superpin/plain run/fast step/fast
for guest in $guests; do
    file=$folder/$guest
    for ((turn = 0; turn < turns; turn++)); do
        measure "$guest.1" "$superpin" $words "$file"
        measure "$guest.2" "$guest_bench" run "$file"
        measure "$guest.3" "$guest_bench" step "$file"
        measure "$guest.4" "$folder/interpreter" $words "$file"
        measure "$guest.5" "$folder/fast" $words "$file"
    done
    awk -v guest="$guest" '
        steps && $1 != steps { is_apart = 1; exit 1 }
        { steps = $1 }
        FNR == 1 { file++ }
        $2 > best[file] { best[file] = $2 }
        END {
            if (is_apart) {
                print "run.sh: not all took the same number of steps of " guest ": " steps " and " $1 >"/dev/stderr"
                exit 1
            }
            printf "%-10s %12d", guest, steps
            printf " %9.1f %6.1f %6.1f %6.1f %6.1f", best[1] / 1e6, best[2] / 1e6, best[3] / 1e6, best[4] / 1e6, best[5] / 1e6
            printf " %15.2f %10.2f %11.2f\n", best[1] / best[4], best[2] / best[5], best[3] / best[5]
        }
    ' "$file.1" "$file.2" "$file.3" "$file.4" "$file.5"
done

printf '\n%-10s %10s %11s\n' guest master master/run
for guest in $guests; do
    read -r known _ <"$folder/$guest.2"
    for ((turn = 0; turn < turns; turn++)); do
        measure "$guest.master" "$guest_bench" master "$folder/$guest"
    done
    awk -v guest="$guest" '
        FNR == 1 { file++ }
        $2 > best[file] { best[file] = $2 }
        END { printf "%-10s %10.1f %11.2f\n", guest, best[1] / 1e6, best[1] / best[2] }
    ' "$folder/$guest.master" "$folder/$guest.2"
done

printf '\n%-8s %-10s %10s %9s\n' tool guest superpin tool/run
for tool in icount bcount mix blocks calls cache; do
    for guest in $guests; do
        read -r known _ <"$folder/$guest.2"
        for ((turn = 0; turn < turns; turn++)); do
            measure "$guest.$tool" "$superpin" $words --tool "$tool" "$folder/$guest"
        done
        awk -v tool="$tool" -v guest="$guest" '
            FNR == 1 { file++ }
            $2 > best[file] { best[file] = $2 }
            END { printf "%-8s %-10s %10.1f %9.2f\n", tool, guest, best[1] / 1e6, best[1] / best[2] }
        ' "$folder/$guest.$tool" "$folder/$guest.2"
    done
done
