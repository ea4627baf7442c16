#!/bin/sh
# pages.sh SEMI SCRIPT N M FOLDER [FROM [TO]]: what `lowindex N` lists for the presentation of a script, in
# pages of M tables, the files 000001, 000002 and so on of FOLDER. The last page ends with `end`, each
# other one with `more`. A file has its name when it is whole, and pages that are there are kept: after
# a search was broken off, the same words go on where the last file ends. FROM and TO are standard tables
# of at most N classes over the same letters: then only the tables greater than FROM are listed, and of
# these only those that are not greater than TO. An empty FROM or TO is none.
set -eu
here=$(dirname "$0")
folder=$5 after=${6:-} to=${7:-}
mkdir -p "$folder"
awk -f "$here/posed.awk" "$2" >"$folder/posed"
page=1
while file=$folder/$(printf %06d "$page"); do
    if [ ! -e "$file" ]; then
        echo "lowindex $3 $4${after:+ after $after}" | cat "$folder/posed" - | "$1" >"$folder/begun"
        # Tables are in the order of their numbers, read as one list.
        awk -v to="$to" '
            function is_greater(s, t,    n, i, x, y) {
                n = split(s, x, /[,\/]/)
                split(t, y, /[,\/]/)
                for (i = 1; i <= n && x[i] == y[i]; i++) { }
                return i <= n && x[i] + 0 > y[i] + 0
            }
            to != "" && $0 !~ /^(end|more)$/ && is_greater($0, to) { print "end"; exit }
            { print }' "$folder/begun" >"$folder/ended"
        mv "$folder/ended" "$file"
    fi
    [ "$(tail -n 1 "$file")" = more ] || break
    after=$(tail -n 2 "$file" | head -n 1)
    page=$((page + 1))
done
rm -f "$folder/posed" "$folder/begun"
