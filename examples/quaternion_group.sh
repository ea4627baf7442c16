#!/bin/sh
# The steps of chains in the quaternion group, with the relation and the place of each.
set -eu
here=$(dirname "$0")
awk -f "$here/chain_steps.awk" "$here/quaternion_group.semi" "$here/quaternion_group.out"
