# Draws why facts came along, as a graph for Graphviz:
#
#     awk -F, -f dot.awk FILE ROWS
#
# ROWS is what the program prints for `why POSITION`. An edge goes from a supplier to each fact that it supplied with names,
# which stand on it. A row of nodes is a round: roots and ambient roots, as boxes, are round 0, and a fact comes one round after
# the last of its suppliers.

FILENAME == ARGV[1] { kind[FNR] = $1 }

FILENAME != ARGV[1] && $1 == "row" {
    note($4, $7)
    note($2, $5)
    is_fact[$2] = 1
    if (($4, $2) in edge_of) {
        edge = edge_of[$4, $2]
        names[edge] = names[edge] "\\n" quoted($6)
    } else {
        edge_of[$4, $2] = ++many_edges
        from[many_edges] = $4
        to[many_edges] = $2
        names[many_edges] = quoted($6)
    }
}

END {
    find_rounds()
    print "digraph why {"
    print "    node [fontname=\"sans-serif\"]"
    print "    edge [fontname=\"sans-serif\"]"
    for (round = 0; round <= last_round; round++) print_round(round)
    for (i = 1; i <= many_edges; i++) {
        print "    line" from[i] " -> line" to[i] " [label=\"" names[i] "\"]"
    }
    print "}"
}

# Notes a node, in the order in which they come.
function note(line, name) {
    if (line in name_of) return
    name_of[line] = name
    nodes[++many_nodes] = line
}

# The round of each node: rounds are raised until every fact is later than its suppliers. Suppliers form no circle.
function find_rounds(   i, moved) {
    for (i = 1; i <= many_nodes; i++) round_of[nodes[i]] = 0
    do {
        moved = 0
        for (i = 1; i <= many_edges; i++) {
            if (round_of[to[i]] > round_of[from[i]]) continue
            round_of[to[i]] = round_of[from[i]] + 1
            if (round_of[to[i]] > last_round) last_round = round_of[to[i]]
            moved = 1
        }
    } while (moved)
}

# The nodes of a round side by side, behind its number.
function print_round(round,   i, line) {
    if (!many_nodes) return
    print "    round" round " [label=\"" (round ? "round " round : "start") "\", shape=plaintext]"
    if (round) print "    round" round - 1 " -> round" round " [style=invis]"
    for (i = 1; i <= many_nodes; i++) {
        line = nodes[i]
        if (round_of[line] == round) {
            print "    line" line " [label=\"" quoted(name_of[line]) "\\nline " line "\"" look(line) "]"
        }
    }
    printf "    { rank=same; round%d", round
    for (i = 1; i <= many_nodes; i++) if (round_of[nodes[i]] == round) printf "; line%d", nodes[i]
    print " }"
}

# How a node looks: a root is a box, an ambient root a dashed one.
function look(line) {
    if (line in is_fact) return ""
    return ", shape=box" (kind[line] == "assume" ? ", style=dashed" : "")
}

# A name as part of a quoted string.
function quoted(name) {
    gsub(/[\\"]/, "\\\\&", name)
    return name
}
