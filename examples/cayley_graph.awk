# Turns the answer of `cayley` into a graph for Graphviz: the right Cayley graph, each element by its
# least word, each edge by its letter. Reads a report whose only query is `cayley`; the letters are
# given in the order of the alphabet:
#     ./semi < examples/partial_maps.semi | awk -v letters=ab -f examples/cayley_graph.awk
BEGIN { print "digraph cayley {" }
$0 == "end" { print "}"; exit }
{
    printf "    %s [label=\"%s\"];\n", $1, $2
    for (i = 4; i <= NF && $i != "left"; i++)
        printf "    %s -> %s [label=\"%s\"];\n", $1, $i, substr(letters, i - 3, 1)
}
