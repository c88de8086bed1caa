# What the tests of the extras share; each begins by reading this file. It sets `extras`, `guest`, `folder` (a temporary one)
# and `superpin`, which makes the reports: the program that the variable SUPERPIN names, or else reference.c of this folder.
set -eu
export LC_ALL=C
ulimit -c 0

extras=$(cd "$(dirname "${BASH_SOURCE[0]}")/.." && pwd)
guest=$(dirname "$extras")/guest
folder=$(mktemp -d)
trap 'rm -rf "$folder"' EXIT
trap 'exit 1' HUP INT TERM
passed=0
failed=0

# Says what is missing, and what follows.
note() {
    echo "$(basename "$0"): $1" >&2
}

# Counts a value that is the expected one, and shows one that is not: its name, what is expected, what came.
expect() {
    if [ "$2" = "$3" ]; then
        passed=$((passed + 1))
    else
        failed=$((failed + 1))
        printf '%s: expected\n%s\nnot\n%s\n' "$1" "$2" "$3"
    fi
}

# Ends the test with its numbers.
finish() {
    echo "$passed passed, $failed failed"
    [ "$failed" -eq 0 ]
}

# Runs a program of the examples with a tool, and the input of the caller; leaves the report in the folder as NAME.TOOL.
report() {
    "$superpin" run --by serial --tool "$2" "$folder/$1" >"$folder/output" 2>"$folder/$1.$2" || true
}

for need in "$guest/superpin-cc --version" '/usr/bin/python3 -c "import elftools"'; do
    eval "$need" >"$folder/output" 2>&1 || { cat "$folder/output" >&2; note "nothing was run: that is missing"; exit 0; }
done
superpin=${SUPERPIN:-$folder/reference}
cc -O2 -o "$folder/reference" "$extras/test/reference.c"
for name in quicksort words fault; do
    "$guest/superpin-cc" -O2 -g -o "$folder/$name" "$guest/examples/$name.c"
done
