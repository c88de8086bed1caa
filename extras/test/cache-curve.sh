#!/usr/bin/env bash
# Tests superpin-cache-curve: its table is that of single runs of the reference.
. "$(dirname "$0")/setup.sh"

echo 'the cat and the dog' >"$folder/text"
expected=''
for sets in 1 64 4096; do
    "$folder/reference" run --tool "cache:$sets:16" "$folder/words" <"$folder/text" 2>"$folder/report" >"$folder/output"
    expected=$expected$(awk -v bytes=$((sets * 16)) '$1 == "cache" { print $2, bytes, $5, $9 }' "$folder/report")'
'
done
"$extras/superpin-cache-curve" --superpin "$superpin" --sets 1,64,4096 --line 16 --draw "$folder/curve.svg" "$folder/words" <"$folder/text" >"$folder/table"
expect 'the table' "$expected" "$(awk 'NR > 1 { print $1, $2, $3, $4 }' "$folder/table")
"
if command -v gnuplot >"$folder/output"; then
    expect 'the drawing' 1 "$(grep -c -m 1 '<svg' "$folder/curve.svg")"
else
    note 'there is no gnuplot, so nothing is drawn; install it by: apt-get install gnuplot-nox'
fi
printf '#!/bin/sh\necho "superpin: 2 file fault" >&2\nexit 125\n' >"$folder/refuses"
chmod +x "$folder/refuses"
expect 'a refusal' 'superpin-cache-curve: superpin refused: superpin: 2 file fault' \
    "$("$extras/superpin-cache-curve" --superpin "$folder/refuses" "$folder/words" 2>&1 </dev/null)"
expect 'sets that are no power of two' 2 \
    "$("$extras/superpin-cache-curve" --sets 3 "$folder/words" 2>"$folder/output" >"$folder/output"; echo $?)"
expect 'the help' 0 "$("$extras/superpin-cache-curve" --help >"$folder/output"; echo $?)"
finish
