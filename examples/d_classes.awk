# Tells of each D class of a finite semigroup, where D is J: its least word, how many elements, R classes,
# L classes and idempotents it has, how many elements an H class has, and whether it is regular, which is
# to have an idempotent (Howie 1995, 2.3). Reads a report as `eggbox.awk` does:
#     ./semi < examples/greens_relations.semi | awk -f examples/d_classes.awk
BEGIN { block = 1 }
$0 == "end" { block++; next }
block == 1 { for (i = 1; i <= NF; i++) row_of[$i] = NR; next }
block == 2 { for (i = 1; i <= NF; i++) column_of[$i] = NR; next }
block == 3 { boxes[++count] = $0; next }
block == 4 { idempotent[$1] = 1 }

END {
    form = "%-10s %8s %5s %5s %5s %11s  %s\n"
    printf form, "least", "elements", "R", "L", "H", "idempotents", "regular"
    for (box = 1; box <= count; box++) {
        split("", rows); split("", columns)
        r = l = stars = 0
        n = split(boxes[box], word, " ")
        for (i = 1; i <= n; i++) {
            if (!(row_of[word[i]] in rows)) { rows[row_of[word[i]]]; r++ }
            if (!(column_of[word[i]] in columns)) { columns[column_of[word[i]]]; l++ }
            if (word[i] in idempotent) stars++
        }
        printf form, word[1], n, r, l, n / (r * l), stars, stars ? "yes" : "no"
    }
}
