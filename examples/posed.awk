# A script without its queries: what it poses. A line has its tokens parted by single blanks.
#     awk -f examples/posed.awk examples/right_congruence.semi
$2 == "=" || $1 ~ /^(version|trans|pperm|bmat|mpt|monoid|semigroup)$/ ||
$1 ~ /^(rel|identity|zero|inverse|twosided|right|left)$/ { $1 = $1; print }
