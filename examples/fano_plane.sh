#!/bin/sh
# Conjugacy classes of the subgroups of index at most 7 of the triangle group (2, 3, 7).
set -eu
here=$(dirname "$0")
awk -f "$here/conjugacy_classes.awk" "$here/fano_plane.out"
