#!/bin/sh
# The symmetric group of degree four as a Coxeter group: the tables of the subgroups that a and b generate,
# and b and c; then how these meet, and join.
set -eu
here=$(dirname "$0")
room=$(mktemp -d)
trap 'rm -rf "$room"' EXIT
cat >"$room/group" <<END
version 2
monoid abc
rel a^2 1
rel b^2 1
rel c^2 1
rel (ab)^3 1
rel (bc)^3 1
rel (ac)^2 1
END
printf 'right a 1\nright b 1\n' | cat "$room/group" - >"$room/ab"
printf 'right b 1\nright c 1\n' | cat "$room/group" - >"$room/bc"
ab=$("$here/coset_table.sh" "$1" "$room/ab")
bc=$("$here/coset_table.sh" "$1" "$room/bc")
printf '%s\n' "$ab" "$bc"
printf 'meet %s\njoin %s\n' "$ab $bc" "$ab $bc" | cat "$room/group" - | "$1"
