#!/bin/sh
# documents.sh PROGRAM: runs each script that README.md and docs/LANGUAGE.md show with its report, and
# tells of each that gives another one. A report stands in the block behind its script, with nothing
# between them but a line `gives`. What LANGUAGE tells otherwise, by words, a status or a cause, is in a
# transcript.
set -eu
semi=$1
top=$(cd "$(dirname "$0")/.." && pwd)
room=$(mktemp -d)
trap 'rm -rf "$room"' EXIT

# Cuts a document into NUMBER.semi and NUMBER.out.
cut_up() {
    awk -v room="$room" '
        /^```/ && inside { inside = 0; close(file); next }
        /^```/ {
            inside = 1
            behind = is_script && is_next
            if (!behind) number++
            file = room "/" number (behind ? ".out" : ".semi")
            printf "" > file
            is_script = !behind
            is_next = 1
            next
        }
        inside { print > file; next }
        /./ && !/^(gives|and the report is)$/ { is_next = 0 }' "$1"
}

for document in README.md docs/LANGUAGE.md; do
    cut_up "$top/$document"
    shown=0
    for report in "$room"/*.out; do
        script=${report%.out}.semi
        shown=$((shown + 1))
        "$semi" <"$script" >"$room/given" || [ $? -eq 1 ]
        cmp -s "$room/given" "$report" || { echo "$document gives another report of:" && cat "$script"; }
    done
    echo "$document: $shown scripts with their reports"
    rm -f "$room"/*
done
"$top/tests/run" "$semi" language.txt
