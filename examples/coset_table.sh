#!/bin/sh
# coset_table.sh SEMI SCRIPT: the table of what a script poses with right pairs, two-sided pairs or none,
# as `lowindex` writes tables and `meet` and `join` read them. The queries of the script are left out.
# Row i is that of the i-th class in the list of `classes`, which is the standard order; in a semigroup
# row 0 is that of the empty word, which is no class. There are at most 1,024 classes.
set -eu
here=$(dirname "$0")
room=$(mktemp -d)
trap 'rm -rf "$room"' EXIT
awk -f "$here/posed.awk" "$2" >"$room/posed"
if grep -q '^left ' "$room/posed"; then
    echo "coset_table.sh: $2 has left pairs" >&2
    exit 1
fi
letters=$(awk '$2 == "=" { printf "%s", $1 } /^(monoid|semigroup)/ { print $2 }' "$room/posed")

echo 'classes 1024' | cat "$room/posed" - | "$1" >"$room/classes" || :
if [ "$(tail -n 1 "$room/classes")" != end ]; then
    echo "coset_table.sh: $2 is not decided, or has more than 1,024 classes" >&2
    exit 1
fi
{ grep -q '^monoid' "$room/posed" || echo 1; sed '$d' "$room/classes"; } >"$room/rows"

# The least word for each row's word with each letter behind it, and the number of its row.
awk -v letters="$letters" '{
    for (i = 1; i <= length(letters); i++) print "normal", ($1 == 1 ? "" : $1) substr(letters, i, 1)
}' "$room/rows" | cat "$room/posed" - | "$1" >"$room/normal"
awk -v width=${#letters} '
    FNR == NR { row_of[$1] = NR - 1; next }
    { printf "%s%s", (FNR == 1 ? "" : (FNR - 1) % width ? "," : "/"), row_of[$2] }
    END { print "" }' "$room/rows" "$room/normal"
