#!/bin/sh
# subgroup_lattice.sh SEMI SCRIPT N: a graph for Graphviz of the right congruences with at most N classes of
# the presentation of a script; those of a group are its subgroups of index at most N. Each has its
# number in the list of `lowindex`, from 0, and its index. Lines lead down to those that are next below:
# S is below T where the meet of S and T is S. At most 100 are listed.
set -eu
here=$(dirname "$0")
room=$(mktemp -d)
trap 'rm -rf "$room"' EXIT
awk -f "$here/posed.awk" "$2" >"$room/posed"
echo "lowindex $3 100" | cat "$room/posed" - | "$1" >"$room/tables"
if [ "$(tail -n 1 "$room/tables")" != end ]; then
    echo "subgroup_lattice.sh: there are more than 100 for $2" >&2
    exit 1
fi
sed '$d' "$room/tables" |
    awk '{ for (i = 1; i < NR; i++) print "meet", table[i], $0; table[NR] = $0 }' |
    cat "$room/posed" - | "$1" >"$room/meets"
awk '
    FNR == NR && $0 != "end" { table[++count] = $0 }
    FNR == NR { next }
    FNR == 1 { i = 1; j = 2 }
    $2 == table[i] { below[i, j] }
    $2 == table[j] { below[j, i] }
    ++i == j { i = 1; j++ }
    END {
        print "graph subgroups {"
        for (i = 1; i <= count; i++)
            printf "    %d [label=\"%d: index %d\"];\n", i - 1, i - 1, split(table[i], rows, "/")
        for (i = 1; i <= count; i++)
            for (j = 1; j <= count; j++) {
                if (!((j, i) in below)) continue
                for (k = 1; k <= count; k++) if ((j, k) in below && (k, i) in below) break
                if (k > count) printf "    %d -- %d;\n", i - 1, j - 1
            }
        print "}"
    }' "$room/tables" "$room/meets"
