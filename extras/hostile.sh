#!/usr/bin/env bash
# Tries random damaged files, command words, programs, schedules and faults of the outside, and compares the ways of running:
#
#     extras/hostile.sh [SEED [COUNT [FIRST]]]
#     extras/hostile.sh memory
#     extras/hostile.sh qemu [COUNT [FIRST]]
#
# The first tries the cases FIRST to FIRST + COUNT - 1 of the seed, by default 10,000 cases from 0 on of the seed 1. A case is the same
# each time, as long as the examples are: those of the repository, and those that guest/check.sh compiled to guest/out, where they are
# there. Each is run serially, by windows, and live with some workers. The exit status, the standard output and the standard error must
# be the same byte for byte, but for lines of slices, which must have as many instructions together as the serial run. Some are run once more with memory refused, where there is a C compiler; each of these must
# do the same, or answer that there is no memory with a beginning of the same outputs. A signal, a run of more than a minute or of more
# than 8 GiB of addresses, memory out of proportion, an answer without an end line or the line of a refusal, and whatever differs, is a
# failure: it is printed with its seed and number, and its files, words and outputs are kept in KEEP, by default a folder hostile-kept
# in the folder for temporary files.
#
# With the word memory, some examples are run as often as they ask for memory, and each request is refused in turn: first by itself,
# then with all later ones. With the word qemu, programs of random instructions are run serially and by qemu-riscv32; what they write and how
# they end must be the same.
#
# The last line has the numbers of the cases. SUPERPIN and SUPERPIN_LIVE are the programs that are run, by default those of the
# repository, which the launchers at the top prove and build first. hostile/ beside this script has the cases. No network is used.
set -eu
export LC_ALL=C

extras=$(cd "$(dirname "${BASH_SOURCE[0]}")" && pwd)
top=$(dirname "$extras")
keep=${KEEP:-${TMPDIR:-/tmp}/hostile-kept}

# Ends: says why.
fail() {
    echo "hostile.sh: $1" >&2
    exit 1
}

command -v python3 >/dev/null || fail 'there is no python3'

# Prints the path of a program: the one that is given, or that of the repository, proved and built.
program() {
    local given=$1 name=$2
    if [ -z "$given" ]; then
        "$top/$name" run "$top/crates/$name/data/hello.elf" >/dev/null 2>&1 || fail "$name was not built"
        given=$top/crates/$name/out/$name
    fi
    readlink -f "$(command -v "$given")" || fail "there is no program $given"
}

superpin=$(program "${SUPERPIN:-}" superpin)
live=$(program "${SUPERPIN_LIVE:-}" superpin_live)
mkdir -p "$keep"
refuse=()
if command -v cc >/dev/null; then
    cc -O2 -shared -fPIC -o "$keep/refuse.$$.so" "$extras/hostile/refuse.c" || fail 'refuse.c was not compiled'
    trap 'rm -f "$keep/refuse.$$.so"' EXIT
    refuse=(--refuse "$(readlink -f "$keep")/refuse.$$.so")
else
    echo 'hostile.sh: there is no cc, so no memory is refused' >&2
fi
python3 -B "$extras/hostile" --superpin "$superpin" --live "$live" "${refuse[@]}" --keep "$keep" "$@"
