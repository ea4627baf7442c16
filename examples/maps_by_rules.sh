#!/bin/sh
# All maps of three points by their reduced rules: the presentation, its index, and whether its rules are
# those that it was made of.
set -eu
here=$(dirname "$0")
room=$(mktemp -d)
trap 'rm -rf "$room"' EXIT
awk -v header='semigroup abc' -f "$here/presentation.awk" "$here/rules_of_maps.out" >"$room/presentation"
cat "$room/presentation"
echo
echo index | cat "$room/presentation" - | "$1"
echo rules | cat "$room/presentation" - | "$1" | cmp - "$here/rules_of_maps.out" && echo 'the same rules'
