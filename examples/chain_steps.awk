# Looks for the relation and the place of each step of a chain, and writes the step so that it can be
# checked by hand: both words, with parentheses about what is replaced. It fails where there is none.
# Reads a script whose words are written out and whose only queries are `chain`, and its report:
#     awk -f examples/chain_steps.awk examples/quaternion_group.semi examples/quaternion_group.out
function side(token) { return token == "1" ? "" : token }

# Whether a relation or pair leads from `word` to `next_word`; then `step` tells it.
function leads(from, to, told,    i, front, back) {
    for (i = 0; i + length(from) <= length(word); i++) {
        if (substr(word, i + 1, length(from)) != from) continue
        front = substr(word, 1, i)
        back = substr(word, i + length(from) + 1)
        if (front to back != next_word) continue
        step = sprintf("%-20s = %-20s  %s", front "(" from ")" back, front "(" to ")" back, told)
        return 1
    }
    return 0
}

FNR == NR && ($1 == "rel" || $1 == "twosided") {
    line[++count] = $0
    left[count] = side($2)
    right[count] = side($3)
}
FNR == NR { next }
$1 == "chain" || $0 == "end" { print; begun = 0; next }
!begun { begun = 1; word = side($1); next }
{
    next_word = side($1)
    for (i = 1; i <= count; i++)
        if (leads(left[i], right[i], line[i]) || leads(right[i], left[i], line[i])) break
    if (i > count) { print "no step: " $1; failed = 1; exit }
    print step
    word = next_word
}
END { exit failed }
