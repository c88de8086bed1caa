#!/usr/bin/env bash
# Measures how a large program is loaded: the largest file that is read, 33,554,432 bytes, in one segment with 8,388,587
# instructions. It ends at once with status 7, so that nearly all the time is that of loading.
#
#     bench/load.sh [PROGRAM WORD ..]
#
# runs PROGRAM WORD .. FILE five times, by default `superpin run --by serial` as `rt ci superpin` makes it, and prints the wall time and the
# processor time in seconds and the most memory in kilobytes of each run. Needs GNU time (/usr/bin/time) and bash.
set -eu
export LC_ALL=C

top=$(dirname "$(cd "$(dirname "$0")" && pwd)")
if [ $# -eq 0 ]; then
    set -- "$top/crates/superpin/out/superpin" run --by serial
fi
if [ ! -x "$1" ]; then
    echo "load.sh: there is no $1; make it by: rt ci superpin" >&2
    exit 1
fi

folder=$(mktemp -d)
trap 'rm -rf "$folder"' EXIT
trap 'exit 1' HUP INT TERM
file=$folder/large

# Writes words, each of eight hexadecimal digits, the lowest byte first.
words() {
    for word in "$@"; do
        printf "\\x${word:6:2}\\x${word:4:2}\\x${word:2:2}\\x${word:0:2}"
    done
}

# lui, addi, lw, sw, add, xor, slli, beq, each of other registers, again and again
words 000102b7 00128313 0002a383 0062a023 00530e33 006e4eb3 00331f13 00628463 >"$folder/part"
for _ in 1 2 3 4 5 6 7 8 9 10 11 12 13 14 15 16 17 18 19 20; do
    cat "$folder/part" "$folder/part" >"$folder/twice"
    mv "$folder/twice" "$folder/part"
done

# The file header, one program header over the whole file, and `addi x17, x0, 93`, `addi x10, x0, 7`, `ecall`; then the rest.
{
    words 464c457f 00010101 00000000 00000000 00f30002 00000001 00010054 00000034 00000000 00000000 00200034 \
        00280001 00000000 00000001 00000000 00010000 00010000 02000000 02000000 00000005 00001000 \
        05d00893 00700513 00000073
    cat "$folder/part"
} | head -c 33554432 >"$file"

for _ in 1 2 3 4 5; do
    status=0
    /usr/bin/time -f '%e s wall, %U s and %S s processor, %M kB' -o "$folder/spent" "$@" "$file" \
        >"$folder/output" 2>"$folder/report" || status=$?
    tail -n 1 "$folder/spent"
done
echo "status $status"
head -n 3 "$folder/report"
