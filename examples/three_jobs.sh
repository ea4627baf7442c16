#!/bin/sh
# A search of low index in three jobs, cut by two marks, which are no tables of the group. The second job
# loses its last page and is begun again. The pages joined are compared with what one run lists.
set -eu
here=$(dirname "$0")
room=$(mktemp -d)
trap 'rm -rf "$room"' EXIT
printf '%s\n' 1,0/1,1 1,2/0,2/0,0 >"$room/marks"

# job I: the tables after mark I - 1 up to mark I; there is no mark before the first, nor behind the last.
job() {
    "$here/pages.sh" "$semi" "$here/search_to_cut.semi" 7 10 "$room/job$1" \
        "$(awk -v i="$1" 'NR == i - 1' "$room/marks")" "$(awk -v i="$1" 'NR == i' "$room/marks")"
}

semi=$1
job 1
job 2
rm "$room/job2/000003"
job 2
job 3
for job in 1 2 3; do
    cat "$room/job$job"/[0-9]* | grep -v -e more -e end >"$room/list$job"
    set -- "$room/job$job"/[0-9]*
    echo "job $job: $# pages, $(grep -c '' "$room/list$job") tables"
done
{ cat "$room"/list[123]; echo end; } | cmp - "$here/search_to_cut.out" && echo 'the same list'
