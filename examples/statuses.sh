#!/bin/sh
# A batch of scripts and their statuses: decided, undecided, and faulty.
set -eu
here=$(dirname "$0")
room=$(mktemp -d)
trap 'rm -rf "$room"' EXIT
printf 'trans 2\na = 0 2\nindex\n' >"$room/faulty.semi"
"$here/batch.sh" "$1" "$room/reports" "$here/symmetric_group.semi" "$here/large_group.semi" \
    "$here/braid_monoid.semi" "$here/braid_monoid_with_letter.semi" "$room/faulty.semi"
