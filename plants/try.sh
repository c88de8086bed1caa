#!/bin/sh
# Tries wrong bodies that the prover must refuse, on demand; they are no part of the gate:
#
#     plants/try.sh [NAME | NAME/EDIT ..]
#
# NAME is a crate, and its edits are plants/NAME/*.edit, in the form of the must-fail edits of the gate; without a word all
# are tried. It works on a copy of the repository in a temporary folder: there each crate is checked first, since nothing
# follows from a refusal where the crate itself is not proved. It prints a line for each edit: `refused`, as it must be;
# `PROVED`, so the contract is too weak or the edit means the same as before; `BAD`, the edit cannot be applied or read;
# `untried`, its check was cut off. The last line has the numbers of those that were refused and of all others.
set -eu
export LC_ALL=C

top=$(cd "$(dirname "$0")/.." && pwd)

# Ends, since the words or the repository are not in order.
fail() {
    echo "try.sh: $1" >&2
    exit 1
}

command -v rt >/dev/null || fail "there is no rt: put the Rattle kit on the path"
copy=$(mktemp -d "${TMPDIR:-/tmp}/plants-XXXXXX")
trap 'rm -rf "$copy"' EXIT
trap 'exit 1' HUP INT TERM

# The crates' own must-fail edits are left out: the gate tries them.
tar -C "$top" --exclude='crates/*/out' --exclude='crates/*/must-fail' -cf - crates crates.txt HANDLES | tar -C "$copy" -xf -

if [ $# -eq 0 ]; then
    cd "$top/plants"
    set -- */
    [ -d "$1" ] || fail "there are no edits in plants/"
fi
: >"$copy/names"
for word in "$@"; do
    word=${word%/}
    name=${word%%/*}
    [ -d "$top/crates/$name" ] || fail "there is no crate $name"
    mkdir -p "$copy/crates/$name/must-fail"
    if [ "$word" = "$name" ]; then edits=$(find "$top/plants/$name" -name '*.edit'); else edits=$top/plants/${word%.edit}.edit; fi
    [ -n "$edits" ] || fail "there are no edits in plants/$name"
    for edit in $edits; do
        [ -f "$edit" ] || fail "there is no edit ${edit#"$top/"}"
        cp "$edit" "$copy/crates/$name/must-fail/"
    done
    grep -qx "$name" "$copy/names" || echo "$name" >>"$copy/names"
done

# Prints the line of each edit, from what `rt must-fail` says of it.
lines() {
    awk '
        !match($0, /must-fail [^ ]+\.edit: /) { next }
        {
            edit = substr($0, RSTART + 10, RLENGTH - 12)
            sub(/\.edit$/, "", edit)
            said = substr($0, RSTART + RLENGTH)
        }
        said ~ /^refused/ { sub(/^refused, as it must be(: )?/, "", said); print "refused " edit (said == "" ? "" : ": " said); next }
        said ~ /^NOT REFUSED/ { print "PROVED  " edit; next }
        said ~ /^BAD EDIT/ { print "BAD     " edit ": " substr(said, 11); next }
        { print "untried " edit ": " said }
    ' "$1" | sort -k 2
}

passed=0
failed=0
while read -r name; do
    echo "try.sh: checking $name" >&2
    if ! (cd "$copy/crates/$name" && exec rt check) </dev/null >"$copy/said" 2>&1; then
        cat "$copy/said" >&2
        fail "$name is not proved as it stands, so its edits were not tried"
    fi
    edits=$(find "$copy/crates/$name/must-fail" -name '*.edit' | wc -l)
    echo "try.sh: trying $edits edits of $name" >&2
    (cd "$copy" && exec rt must-fail "$name") </dev/null >"$copy/said" 2>&1 || true
    lines "$copy/said" >"$copy/lines"
    cat "$copy/lines"
    [ "$(wc -l <"$copy/lines")" -eq "$edits" ] || { cat "$copy/said" >&2; fail "rt must-fail did not tell of each edit"; }
    refused=$(grep -c '^refused ' "$copy/lines") || true
    passed=$((passed + refused))
    failed=$((failed + edits - refused))
done <"$copy/names"

echo "$passed passed, $failed failed"
[ "$failed" -eq 0 ]
