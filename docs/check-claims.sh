#!/bin/sh
# Finds each promise of docs/CLAIMS.md at its call:
#
#     docs/check-claims.sh [FILE.md]
#
# A promise is named between backticks, on one line, as `rv_machine::Guest::step: gives, frames`: a crate of crates/, the
# modules or the type where the call stands, if any, the call, and the names of clauses of its contract. In place of names
# there may be `ensures`, for a contract with one clause that has no name, and behind a type `invariant`, for the type's own.
# The sources are read as `rt fmt` lays them out. The script reads and proves nothing: it shows that the names are there. It
# prints each that is not, and the numbers of both in the last line. Before, it has `what-to-believe.py` compare the files that a
# reader must believe with those that the page lists, and `check-plants.py` find wrong bodies that no longer fit the code. It is
# no part of the gate.
set -eu
export LC_ALL=C

top=$(cd "$(dirname "$0")/.." && pwd)
claims=${1:-$top/docs/CLAIMS.md}
folder=$(mktemp -d)
trap 'rm -rf "$folder"' EXIT
trap 'exit 1' HUP INT TERM

# Each clause of the sources as a line: crate, the head of the impl or trait round it or `-`, call or type, clause.
find "$top/crates" -path '*/src/*.rt' -type f | while read -r file; do
    crate=${file#"$top/crates/"}
    awk -v crate="${crate%%/*}" '
        function is_item(word) { return $0 ~ "^ *(pub(\\([a-z]+\\))? )?(const )?(unsafe )?" word "[ <]" }
        function indented() { return match($0, /[^ ]/) - 1 }
        function show(name, clause) { print crate "\t" (block == "" ? "-" : block) "\t" name "\t" clause }
        # The type that an impl is of.
        function type_of(head) {
            sub(/^impl(<[^>]*>)? /, "", head)
            sub(/.* for /, "", head)
            sub(/[^A-Za-z0-9_].*/, "", head)
            return head
        }
        is_item("impl") || is_item("trait") { block = $0 }
        /^}/ { block = "" }
        is_item("fn") {
            call = $0
            sub(/^ *(pub(\([a-z]+\))? )?(const )?(unsafe )?fn /, "", call)
            sub(/[^A-Za-z0-9_].*/, "", call)
            indent = indented()
            show(call, "")
            if (/ \{$/) call = ""
        }
        call != "" && indented() == indent + 4 && /^ +ensures\*? / {
            clause = $0
            sub(/^ +ensures\*? */, "", clause)
            sub(/ *\{.*/, "", clause)
            show(call, clause == "" ? "ensures" : clause)
        }
        # The body begins, or none follows.
        indented() == indent && /\{$/ || block ~ /trait / && /;$/ { call = "" }
        /^ +ghost invariant = / { show(type_of(block), "invariant") }
    ' "$file"
done >"$folder/clauses"

status=0
"$top/docs/what-to-believe.py" "$claims" >/dev/null || status=1
"$top/docs/check-plants.py" >"$folder/plants" || { status=1; cat "$folder/plants"; }
awk -F '\t' '
    # Tells whether the head of an impl or a trait names the type, where a type is wanted.
    function is_of(head, type) { return type == "" || head ~ ("(^|[^A-Za-z0-9_])" type "($|[^A-Za-z0-9_])") }
    function miss(why) { print FILENAME ":" FNR ": " token ": " why; failed++ }
    # Looks a clause up among those of the calls that the token names.
    function look(clause,  i) {
        for (i = 1; i <= found; i++)
            if (clause_of[at[i]] == clause) { passed++; return }
        miss("there is no clause " clause)
    }
    function check(  sides, path, names, count, type, i) {
        split(token, sides, ": ")
        count = split(sides[1], path, "::")
        type = count > 2 && path[count - 1] ~ /^[A-Z]/ ? path[count - 1] : ""
        found = 0
        for (i = 1; i <= size; i++)
            if (crate_of[i] == path[1] && call_of[i] == path[count] && is_of(head_of[i], type)) at[++found] = i
        if (!(path[1] in is_crate)) { miss("there is no crate " path[1] " with code"); return }
        if (!found) { miss("there is no call " path[count] (type == "" ? "" : " of " type)); return }
        count = split(sides[2], names, /, */)
        for (i = 1; i <= count; i++) look(names[i])
    }
    FNR == 1 { file++ }
    file == 1 { size++; crate_of[size] = $1; head_of[size] = $2; call_of[size] = $3; clause_of[size] = $4; is_crate[$1] = 1; next }
    {
        rest = $0
        while (match(rest, /`[a-z][a-z0-9_]*(::[A-Za-z0-9_]+)+: [a-z0-9_]+(, *[a-z0-9_]+)*`/)) {
            token = substr(rest, RSTART + 1, RLENGTH - 2)
            rest = substr(rest, RSTART + RLENGTH)
            check()
        }
    }
    END {
        if (passed + failed == 0) { print FILENAME ": no promise is named in the form `crate::call: clause`"; failed = 1 }
        printf "%d passed, %d failed\n", passed, failed
        exit failed > 0
    }
' "$folder/clauses" "$claims" || status=1
exit $status
