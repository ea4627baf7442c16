# Conjugacy classes of the subgroups that `lowindex` lists for a group. Subgroups are conjugate where their
# tables are the same but for the root, so each node is made the root in turn. A line tells the index,
# how many conjugates there are, and the first one listed. Reads a report whose first query is `lowindex`:
#     ./semi < examples/fano_plane.semi | awk -f examples/conjugacy_classes.awk
$0 == "end" || $0 == "more" { print; exit }
$0 in seen { next }
{
    index_of = split($0, rows, "/")
    conjugates = 0
    for (root = 0; root < index_of; root++) {
        table = seen_from(root, index_of)
        if (!(table in seen)) { seen[table]; conjugates++ }
    }
    print "index", index_of, "conjugates", conjugates, $0
}

# The standard table of the same graph from another root: its nodes are numbered as they appear.
function seen_from(root, n,    number, node, count, i, j, width, edges, line) {
    node[0] = root
    number[root] = 0
    count = 1
    for (i = 0; i < count; i++) {
        width = split(rows[node[i] + 1], edges, ",")
        for (j = 1; j <= width; j++) {
            if (!(edges[j] in number)) { number[edges[j]] = count; node[count++] = edges[j] }
            line = line (j > 1 ? "," : i ? "/" : "") number[edges[j]]
        }
    }
    return line
}
