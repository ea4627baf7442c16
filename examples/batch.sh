#!/bin/sh
# batch.sh SEMI FOLDER SCRIPT..: runs scripts side by side, a process each, as many at a time as there are
# processors. A line tells the status of each, and what it told on standard error. The report of
# NAME.semi is FOLDER/NAME.out, so names are to differ. `xargs -0 -P` is that of GNU and BSD.
set -eu
semi=$1 folder=$2
shift 2
mkdir -p "$folder"
# shellcheck disable=SC2016
printf '%s\0' "$@" | xargs -0 -n 1 -P "$(nproc)" sh -c '
    report=$1/$(basename "$2" .semi)
    status=0
    "$0" --workers 1 <"$2" >"$report.out" 2>"$report.err" || status=$?
    echo "$status" >"$report.status"' "$semi" "$folder"
for script; do
    report=$folder/$(basename "$script" .semi)
    echo "$(cat "$report.status") $(basename "$script")" "$(cat "$report.err")" | sed 's/ *$//'
done
