#!/bin/sh
# The right Cayley graph of five partial permutations, for Graphviz.
set -eu
here=$(dirname "$0")
awk -v letters=ab -f "$here/cayley_graph.awk" "$here/partial_maps.out"
