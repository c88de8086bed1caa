#!/usr/bin/env bash
# Tests superpin-callgrind: its total is the number of instructions that were executed, also where a fault ended the run, as
# the reference counts them one by one and, where its plugin can be built, qemu; callgrind_annotate reads the file.
. "$(dirname "$0")/setup.sh"

# Prints the sum of the costs of a callgrind file.
sum() {
    awk '/^0x/ { sum += $3 } END { print sum + 0 }' "$1"
}

for name in quicksort words fault; do
    echo 'the cat and the dog' | report "$name" blocks
    "$extras/superpin-callgrind" "$folder/$name" "$folder/$name.blocks" >"$folder/$name.callgrind"
    icount=$(echo 'the cat and the dog' | "$folder/reference" run "$folder/$name" 2>&1 >"$folder/output" | awk '$1 == "icount" { print $2 }')
    expect "$name, the sum" "$icount" "$(sum "$folder/$name.callgrind")"
    expect "$name, the totals" "$icount" "$(awk '$1 == "totals:" { print $2 }' "$folder/$name.callgrind")"
done
expect 'the instruction behind the fault' '' \
    "$(grep "^0x$(printf '%x' $(($(awk '$2 == "signal" { print $5 }' "$folder/fault.blocks") + 4))) " "$folder/fault.callgrind")"

{ printf 'said by the program, with no line end'; cat "$folder/quicksort.blocks"; } >"$folder/behind.blocks"
"$extras/superpin-callgrind" "$folder/quicksort" "$folder/behind.blocks" >"$folder/behind.callgrind"
expect 'a report behind the error stream' "$(cat "$folder/quicksort.callgrind")" "$(cat "$folder/behind.callgrind")"

if command -v qemu-riscv32 >"$folder/output" &&
    cc -shared -fPIC -O2 -D VERSION=1 -o "$folder/count.so" "$guest/count.c" 2>"$folder/output" &&
    qemu-riscv32 -plugin "$folder/count.so,out=$folder/count" "$folder/quicksort" >"$folder/output" 2>&1; then
    expect 'the sum by qemu' "$(cat "$folder/count")" "$(sum "$folder/quicksort.callgrind")"
else
    note 'there is no qemu-riscv32 with the plugin count.c, so its count is not compared'
fi

if command -v callgrind_annotate >"$folder/output"; then
    callgrind_annotate "$folder/quicksort.callgrind" >"$folder/annotated"
    expect 'the total of callgrind_annotate' "$(sum "$folder/quicksort.callgrind")" \
        "$(awk '/PROGRAM TOTALS/ { gsub(/,/, ""); print $1 }' "$folder/annotated")"
    expect 'the first function of callgrind_annotate' 1 "$(grep -c -m 1 'quicksort.c:sort' "$folder/annotated")"
else
    note 'there is no callgrind_annotate, so it is not tried; install it by: apt-get install valgrind'
fi

expect 'a report of another program' "superpin-callgrind: $folder/words.blocks is not of $folder/quicksort" \
    "$("$extras/superpin-callgrind" "$folder/quicksort" "$folder/words.blocks" 2>&1 | sed 's/: at .*//')"
expect 'no report' "superpin-callgrind: $folder/output: it does not end with the line of a report, \`end exit\` or \`end signal\`" \
    "$(: >"$folder/output"; "$extras/superpin-callgrind" "$folder/quicksort" "$folder/output" 2>&1)"
expect 'the help' 0 "$("$extras/superpin-callgrind" --help >"$folder/output"; echo $?)"
finish
