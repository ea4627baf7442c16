# Turns the answer of `rules` into a presentation, with a relation for each reduced rule. Reads a report
# whose only query is `rules`; the header is given, with the letters in the order of the alphabet:
#     ./semi < examples/rules_of_maps.semi | awk -v header='semigroup abc' -f examples/presentation.awk
BEGIN { print "version 2"; print header }
$0 == "undecided" { exit 1 }
$0 == "end" { exit }
{ print "rel", $1, $2 }
