#!/usr/bin/env bash
# Tests superpin-annotate: the counts of functions are those of the report added up by awk, its lists add up to the run.
. "$(dirname "$0")/setup.sh"

report quicksort blocks </dev/null
"$extras/superpin-annotate" --top 100000 "$folder/quicksort" "$folder/quicksort.blocks" >"$folder/shown"

# Prints the counts and names of the functions, the greatest first, from the report itself.
functions() {
    awk '$1 == "block" { sum[$5] += $3 * $4 } END { for (name in sum) print sum[name], name }' "$1" | sort -k 1nr -k 2
}

# Prints the sum of a list of what was shown.
sum_of() {
    awk -v title="$1" '$0 == title { is_in = 1; next } NF == 0 { is_in = 0 } is_in { gsub(/,/, "", $2); sum += $2 } END { print sum }' "$folder/shown"
}

expect 'the functions' "$(functions "$folder/quicksort.blocks" | head -5)" \
    "$(awk '$0 == "Functions" { is_in = 1; next } NF == 0 { is_in = 0 } is_in { gsub(/,/, "", $2); print $2, $3 }' "$folder/shown" | head -5)"
total=$(awk '$1 == "block" { sum += $3 * $4 } END { print sum }' "$folder/quicksort.blocks")
for title in Functions Lines Instructions; do
    expect "the sum of $title" "$total" "$(sum_of "$title")"
done
expect 'the total' "$total" "$(head -n 1 "$folder/shown" | tr -d , | cut -d ' ' -f 1)"
expect 'one function' 1 \
    "$("$extras/superpin-annotate" --function is_less "$folder/quicksort" "$folder/quicksort.blocks" | grep -c '  is_less ')"
expect 'a function that is not there' "superpin-annotate: $folder/quicksort has no function nothing" \
    "$("$extras/superpin-annotate" --function nothing "$folder/quicksort" "$folder/quicksort.blocks" 2>&1 >"$folder/output")"
expect 'no colour in a file' 0 "$(grep -c "$(printf '\033')" "$folder/shown")"
expect 'colour where it is asked for' 1 \
    "$("$extras/superpin-annotate" --colour always --top 1 "$folder/quicksort" "$folder/quicksort.blocks" | grep -c -m 1 "$(printf '\033')")"
expect 'the help' 0 "$("$extras/superpin-annotate" --help >"$folder/output"; echo $?)"
finish
