#!/bin/sh
# The subgroups of index at most 4 of the triangle group (2, 4, 4) by inclusion, for Graphviz.
set -eu
here=$(dirname "$0")
"$here/subgroup_lattice.sh" "$1" "$here/triangle_group.semi" 4
