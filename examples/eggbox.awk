# Lays out Green's relations as egg boxes (Clifford and Preston 1961, 2.1): a table for each J class,
# with a row for each R class and a column for each L class, whose cells are the H classes;
# idempotents are starred. Reads a report whose only queries are `green r`, `green l`, `green j` and
# `idempotents`, in this order:
#     ./semi < examples/greens_relations.semi | awk -f examples/eggbox.awk
BEGIN { block = 1 }
$0 == "end" { block++; next }
block == 1 { for (i = 1; i <= NF; i++) row_of[$i] = NR; rows[NR] = $0; next }
block == 2 { for (i = 1; i <= NF; i++) column_of[$i] = NR; next }
block == 3 { boxes[++count] = $0; next }
block == 4 { star[$1] = "*" }

# The cells of a J class, by their rows and columns in the order of their first words.
function lay_out(words,    n, i, row, column, rows_here, columns_here, row_at, column_at, cell, width, line) {
    split("", row_at); split("", column_at); split("", cell); split("", width)
    n = split(words, word, " ")
    for (i = 1; i <= n; i++) {
        if (!(row_of[word[i]] in row_at)) row_at[row_of[word[i]]] = ++rows_here
        if (!(column_of[word[i]] in column_at)) column_at[column_of[word[i]]] = ++columns_here
        row = row_at[row_of[word[i]]]
        column = column_at[column_of[word[i]]]
        cell[row, column] = cell[row, column] (cell[row, column] == "" ? "" : " ") word[i] star[word[i]]
        if (length(cell[row, column]) > width[column]) width[column] = length(cell[row, column])
    }
    for (row = 1; row <= rows_here; row++) {
        line = "|"
        for (column = 1; column <= columns_here; column++)
            line = line sprintf(" %-" width[column] "s |", cell[row, column])
        print line
    }
}

END {
    for (box = 1; box <= count; box++) {
        if (box > 1) print ""
        lay_out(boxes[box])
    }
}
