# How the nodes of a network stand, from lines `mcs monomer x y z`. Settings: nodes, along each axis, strand, the
# monomers between two nodes, and warm. Prints for each frame its time, the mean and the greatest square of the
# length of a bond, the mean square of the distance of neighbouring nodes, and the mean square of how far nodes have
# left their first places, beyond what all of them did together. Lengths are in lattice units. A frame counts for the
# mean where its time is after `warm`; of the greatest squares the last line has the greatest.
#
# Nodes are numbered with x running fastest. A node takes 1 + 3 strand monomers: itself, then those of its strands
# along x, y and z. Places are not folded into the box, so the last strand of a row leads to the first node of the
# row one side farther on.

function monomer_of(i, j, k) {
    return 1 + ((k * nodes + j) * nodes + i) * (1 + 3 * strand)
}

# a bond or a distance from one monomer to another that stands so far beyond its place
function square(from, to, beyond_x, beyond_y, beyond_z) {
    return (x[to] + beyond_x - x[from]) ^ 2 + (y[to] + beyond_y - y[from]) ^ 2 + (z[to] + beyond_z - z[from]) ^ 2
}

function add_bond(length_square) {
    squares += length_square
    if (length_square > longest) longest = length_square
}

# the bonds along a strand, from a node to its next one along an axis
function follow(node, next_node, axis, beyond_x, beyond_y, beyond_z,    before, s, m) {
    before = node
    for (s = 1; s <= strand; s++) {
        m = node + axis * strand + s
        add_bond(square(before, m, 0, 0, 0))
        before = m
    }
    add_bond(square(before, next_node, beyond_x, beyond_y, beyond_z))
    distances += square(node, next_node, beyond_x, beyond_y, beyond_z)
}

function frame_done(    i, j, k, n, node, u, v, w, su, sv, sw, ss, last) {
    squares = distances = longest = su = sv = sw = ss = 0
    last = nodes - 1
    for (k = 0; k < nodes; k++) for (j = 0; j < nodes; j++) for (i = 0; i < nodes; i++) {
        node = monomer_of(i, j, k)
        follow(node, monomer_of((i + 1) % nodes, j, k), 0, i == last ? side : 0, 0, 0)
        follow(node, monomer_of(i, (j + 1) % nodes, k), 1, 0, j == last ? side : 0, 0)
        follow(node, monomer_of(i, j, (k + 1) % nodes), 2, 0, 0, k == last ? side : 0)
        u = x[node] - 2 * (strand + 1) * i
        v = y[node] - 2 * (strand + 1) * j
        w = z[node] - 2 * (strand + 1) * k
        su += u; sv += v; sw += w
        ss += u ^ 2 + v ^ 2 + w ^ 2
    }
    n = nodes ^ 3
    ss = ss / n - (su ^ 2 + sv ^ 2 + sw ^ 2) / n ^ 2
    squares /= 3 * n * (strand + 1)
    show(time, squares, longest, distances / (3 * n), ss)
    if (time > warm) {
        counted++
        sum_squares += squares; sum_distances += distances / (3 * n); sum_left += ss
        if (longest > longest_of_all) longest_of_all = longest
    }
}

function show(name, bond, longest, distance, left) {
    printf "%8s %10.3f %10d %10.3f %10.3f\n", name, bond, longest, distance, left
}

BEGIN { printf "%8s %10s %10s %10s %10s\n", "# mcs", "bond^2", "longest^2", "distance^2", "left^2" }

FNR == 1 { time = $1; side = 2 * nodes * (strand + 1) }
$1 != time { frame_done(); time = $1 }
{ monomers = $2; x[$2] = $3; y[$2] = $4; z[$2] = $5 }

END {
    frame_done()
    if (counted) show("# mean", sum_squares / counted, longest_of_all, sum_distances / counted, sum_left / counted)
}
