#!/bin/sh
# All maps of three points: their egg boxes, and what there is in each D class.
set -eu
here=$(dirname "$0")
awk -f "$here/eggbox.awk" "$here/greens_relations.out"
echo
awk -f "$here/d_classes.awk" "$here/greens_relations.out"
