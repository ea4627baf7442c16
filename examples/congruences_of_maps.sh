#!/bin/sh
# The congruences that one pair generates, of all maps of three points: 351 runs.
set -eu
here=$(dirname "$0")
"$here/principal_congruences.sh" "$1" "$here/greens_relations.semi"
