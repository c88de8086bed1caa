# What check.sh and compare.sh share; each begins by reading this file. It sets `guest`, `top` and `folder`, a temporary one,
# and has the table of the runs of the examples: `run_rows` calls `check`, which each of the two makes for itself, for each row.
set -eu
export LC_ALL=C
ulimit -c 0

guest=$(cd "$(dirname "${BASH_SOURCE[0]}")" && pwd)
top=$(dirname "$guest")
examples=(hello echo capitals words json quicksort sieve matrix heap library atomics stack llsc fault untabled)
folder=$(mktemp -d)
trap 'rm -rf "$folder"' EXIT
trap 'exit 1' HUP INT TERM
passed=0
failed=0

# Says what is missing, and what follows.
note() {
    echo "$(basename "$0"): $1" >&2
}

# Ends without a run, since a tool is missing.
skip() {
    note "$1, so nothing was run"
    exit 0
}

# Prints the program that is run: the one that is given, or that of the repository.
find_program() {
    local name=$1 given=$2
    if [ -n "$given" ]; then
        command -v "$given" || { note "there is no program $given"; exit 1; }
    elif [ -x "$top/crates/$name/out/$name" ] || command -v rt >/dev/null; then
        echo "$top/$name"
    fi
}

# Sets `superpin` and `superpin_live` to the programs that are run.
find_superpin() {
    superpin=$(find_program superpin "${SUPERPIN:-}")
    superpin_live=$(find_program superpin_live "${SUPERPIN_LIVE:-}")
    [ -n "$superpin" ] && [ -n "$superpin_live" ] || skip "there is no rt to build superpin and superpin_live"
}

# Runs a way, which is serial, windows or live, with these words.
run_way() {
    case $1 in
        live) shift; "$superpin_live" run "$@" ;;
        *) "$superpin" run --by "$@" ;;
    esac
}

# Compiles the examples, as a user would.
build() {
    local name
    "$guest/superpin-cc" --version >/dev/null || skip 'the compiler is not complete'
    mkdir -p "$guest/out"
    for name in "${examples[@]}"; do
        "$guest/superpin-cc" -O2 -g -Wall -Wextra -o "$guest/out/$name" "$guest/examples/$name.c" -lm || exit 1
    done
}

# Ends with the numbers of the runs.
finish() {
    echo "$passed passed, $failed failed"
    [ "$failed" -eq 0 ]
}

text='The cat and the dog; the end.\nNo line end after THIS'
long_text=$(awk 'BEGIN { for (i = 0; i < 20000; i++) printf "word%c again%c\n", 97 + i % 7, 97 + i % 3 }')
few='      3 the\n      2 end\n      1 after\n      1 and\n      1 cat\n      1 dog\n      1 line\n      1 no\n      1 this\n'
many='   6667 againa\n   6667 againb\n   6666 againc\n   2858 worda\n   2857 wordb\n   2857 wordc\n   2857 wordd\n'
many=$many'   2857 worde\n   2857 wordf\n   2857 wordg\n'
json='{"a": [1, 2.5, -3e2, true, null], "b": {"c": "x\\\\n"}}\n'
found='2 objects, 1 arrays, 4 strings, 2 words, depth 2\n3 numbers with the sum -296.5\n'
unclosed="line 2: expected a comma or ], not '3'\n"
sorted='10 16485 32766\n32766 16476 10\n'
memory='14813 different numbers\nsquares 1309403758\na block of 3,000,000 bytes: yes\n'
library='[   42] [42   ] [00042] [+42] [2a] [052]\n[0.667] [  1.23e+05] [0.0001] [     let] [c]\n31 -12 6.02e+23\n29/February/2000\n'
library=$library'<one><two><three>\nline of 5: first\nline of 16: last without end\n1.414213562 0.841470985 1.071773463\n'
library=$library'2000-02-29 12:00:00, later 1, now 1\nout of qsort\na file: no, No such file or directory\n'
capitals='1: one\n2: two\n3: three\n4: four\n5: five\n6: six\nEVERY INSTRUCTION\nCOUNTS ONCE.\n'
atomics='added 499500, before 166167000\nbits 0xfffff5aa, before 0x9d7c4\nstrong 0, 1, found 9, now 11\nweak 46667771\n'
atomics=$atomics'1 byte -72, greatest 127; 2 bytes 7440; 8 bytes 0x79f2c00079f2cf\n'
atomics=$atomics'exchanged -72, 7440, 0x79f2c00079f2cf, beside 99\nwithout a lock: 4 bytes 1, 8 bytes 0\n'
atomics=$atomics'object 1 -2 3\nflag 0, 1, 0\nolder 100, -4950, 1\n'
stack='sum 32250\ntook 3 and 2, the same top again: 1, the late one is done: 0\nleft 3\nleft 1\n'
pairs='reserved: 0, words 5 and 2\nnothing reserved: 1, words 1 and 2\nanother address: 1, words 1 and 2\n'
pairs=$pairs'another address reserved later: 1, words 1 and 2\ntwice, at first: 0, words 9 and 2\ntwice, at last: 1, words 1 and 2\n'
pairs=$pairs'behind one that failed: 1, words 1 and 2\n'
between='a store between: 0, words 13 and 2\nan atomic between: 0, words 14 and 2\na call between: 1, words 1 and 2\n'
signal='end signal 11 at 0x????????'
refusal='superpin: 6 unsupported call 278 at 0x????????'

run_rows() {
    #     under    example   status last line     standard output                 input                           arguments
    check both     hello     0      'end exit 0'  'hello\n'                       ''
    check both     echo      0      'end exit 0'  '\n'                            ''
    check both     echo      0      'end exit 0'  'one two three  four\n'         ''                              one 'two three' '' four
    check both     capitals  6      'end exit 6'  "$capitals"                    'Every instruction\ncounts once.\n' one two three four five six
    check both     words     0      'end exit 0'  ''                              ''
    check both     words     0      'end exit 0'  "$few"                          "$text"
    check both     words     0      'end exit 0'  "$many"                         "$long_text"
    check both     json      0      'end exit 0'  "$found"                        "$json"
    check both     json      1      'end exit 1'  "$unclosed"                     '{"a": [1, 2\n3]}'
    check both     quicksort 0      'end exit 0'  "$sorted"                       ''
    check both     sieve     0      'end exit 0'  '78498 primes below 1000000\n'  ''
    check both     matrix    0      'end exit 0'  'first -3, last 8, trace 20\n'  ''
    check both     heap      0      'end exit 0'  "$memory"                       ''
    check both     library   42     'end exit 42' "$library"                      'first\nlast without end'
    check both     atomics   0      'end exit 0'  "$atomics"                      ''
    check both     stack     0      'end exit 0'  "$stack"                        ''
    check both     llsc      0      'end exit 0'  "$pairs"                        ''
    check superpin llsc      0      'end exit 0'  "$between"                      ''                              between
    check both     fault     139    "$signal"     'before the fault\n'            ''
    check superpin untabled  125    "$refusal"    'before the call\n'             ''
}
