#!/usr/bin/env bash
# Tests superpin-callgraph: the numbers of calls are those that the source tells and that awk counts in the report.
. "$(dirname "$0")/setup.sh"

report quicksort calls </dev/null
report quicksort blocks </dev/null
"$extras/superpin-callgraph" "$folder/quicksort" "$folder/quicksort.calls" "$folder/quicksort.blocks" >"$folder/graph"

# Prints how often one function called another, from the graph.
calls() {
    awk -v source="$1" -v target="$2" '
        match($0, /\[label="[^"\\]*/) && !/->/ { name[$1] = substr($0, RSTART + 8, RLENGTH - 8) }
        $2 == "->" && name[$1] == source && name[$3] == target { gsub(/[^0-9]/, "", $4); print $4 }
    ' "$folder/graph"
}

expect 'main calls sort' 2 "$(calls main sort)"
expect 'sort calls is_less' "$(grep -c '^call .* is_less$' "$folder/quicksort.calls")" "$(calls sort is_less)"
expect 'all calls' "$(grep -c '^call ' "$folder/quicksort.calls")" \
    "$(awk '$2 == "->" { gsub(/[^0-9]/, "", $4); sum += $4 } END { print sum }' "$folder/graph")"
expect 'the own instructions of is_less' "$(awk '$1 == "block" && $5 == "is_less" { sum += $3 * $4 } END { print sum }' "$folder/quicksort.blocks")" \
    "$(grep -o 'is_less\\n[0-9,]*' "$folder/graph" | sed 's/.*\\n//; s/,//g')"
expect 'few calls left out' 0 \
    "$("$extras/superpin-callgraph" --least 3 "$folder/quicksort" "$folder/quicksort.calls" | grep -c 'label="[12]"')"
if command -v dot >"$folder/output"; then
    "$extras/superpin-callgraph" --svg "$folder/graph.svg" "$folder/quicksort" "$folder/quicksort.calls"
    expect 'the drawing' 1 "$(grep -c -m 1 '<svg' "$folder/graph.svg")"
else
    note 'there is no dot, so nothing is drawn; install it by: apt-get install graphviz'
fi
expect 'the help' 0 "$("$extras/superpin-callgraph" --help >"$folder/output"; echo $?)"
finish
