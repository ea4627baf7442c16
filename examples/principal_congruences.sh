#!/bin/sh
# principal_congruences.sh SEMI SCRIPT: the two-sided congruences that one pair generates, of a semigroup
# with at most 100 elements that a script gives. A run for each pair of different elements; runs that
# give the same rules give the same congruence. A line tells how many classes a congruence has, how many
# pairs generate it, and the first of them. All other congruences are joins of these.
set -eu
here=$(dirname "$0")
room=$(mktemp -d)
trap 'rm -rf "$room"' EXIT
posed=$(awk -f "$here/posed.awk" "$2")
printf '%s\nclasses 100\n' "$posed" | "$1" >"$room/classes" || :
if [ "$(tail -n 1 "$room/classes")" != end ]; then
    echo "principal_congruences.sh: $2 is not decided, or has more than 100 elements" >&2
    exit 1
fi
sed '$d' "$room/classes" |
    awk '{ for (i = 1; i < NR; i++) print word[i], $0; word[NR] = $0 }' >"$room/pairs"
while read -r u v; do
    echo "pair $u $v"
    printf '%s\ntwosided %s %s\nindex\nrules\n' "$posed" "$u" "$v" | "$1" --workers 1
done <"$room/pairs" >"$room/reports"
awk '
    $1 == "pair" && NF == 3 { pair = $2 " " $3; report = ""; next }
    $0 != "end" { report = report $0 "\n"; next }
    !(report in pairs) { order[++count] = report; first[report] = pair }
    { pairs[report]++ }
    END {
        for (i = 1; i <= count; i++) {
            split(order[i], line)
            print "classes", line[2], "pairs", pairs[order[i]], "first", first[order[i]]
        }
    }' "$room/reports"
