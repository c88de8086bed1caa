#!/usr/bin/env bash
# Runs the tests of the extras, and ends with their numbers together:
#
#     extras/check.sh
#
# SUPERPIN may name the program that makes the reports; without it test/reference.c does, a plain interpreter.
set -u
extras=$(cd "$(dirname "$0")" && pwd)
passed=0
failed=0
for test in callgrind annotate callgraph cache-curve; do
    status=0
    said=$("$extras/test/$test.sh") || status=$?
    while read -r line; do echo "$test: $line"; done <<<"$said"
    read -r good _ bad _ <<<"$(tail -n 1 <<<"$said")"
    if [[ $good$bad =~ ^[0-9]+$ ]]; then
        passed=$((passed + good))
        failed=$((failed + bad))
    elif [ "$status" -ne 0 ]; then
        echo "$test: it was cut off"
        failed=$((failed + 1))
    fi
done
echo "$passed passed, $failed failed"
[ "$failed" -eq 0 ]
