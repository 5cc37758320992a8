# How a gel forms, from a trajectory of bfm_cli whose chains stand one after another. Settings: chains, length_of, the
# monomers of a chain, sites, how many of them take a link, and warm, the time of the last frame without links. Prints
# for each frame from `warm` on its time, the links made so far, which share they are of the most that could be, the
# number of molecules, the share of all monomers in the largest one and what the theory of Flory and Stockmayer has
# for it, and of the other molecules the mean size and its weight mean, in monomers. Run it with LC_ALL=C.

function wrong(what) {
    printf "line %d of the trajectory: %s\n", FNR, what > "/dev/stderr"
    failed = 1
    exit 1
}

# the molecule of a chain, as the chain that stands for it
function molecule_of(chain) {
    while (parent[chain] != chain) chain = parent[chain] = parent[parent[chain]]
    return chain
}

function link(i, j) {
    if (i < 1 || j < 1 || i > chains * length_of || j > chains * length_of) wrong("a link of no monomer")
    links++
    parent[molecule_of(int((i - 1) / length_of))] = molecule_of(int((j - 1) / length_of))
}

# The share of the largest molecule among infinitely many chains without rings: 1 - v^sites, where v, the probability
# that a way out of a chain through one of its sites comes to an end, is the least root of v = 1 - p + p v^(sites - 1).
function ideal(p,    v, step) {
    for (step = 0; step < 100000; step++) v = 1 - p + p * v ^ (sites - 1)
    return 1 - v ^ sites
}

function show(    chain, root, size, molecules, largest, squares, others, p) {
    molecules = largest = squares = 0
    for (chain = 0; chain < chains; chain++) size[molecule_of(chain)]++
    for (root in size) {
        molecules++
        squares += size[root] ^ 2
        if (size[root] > largest) largest = size[root]
    }
    others = chains - largest
    p = 2 * links / (chains * sites)
    printf "%8d %8d %8.3f %10d %8.3f %8.3f %8.1f %8.1f\n", time, links, p, molecules, largest / chains, ideal(p),
        (others ? length_of * others / (molecules - 1) : 0), (others ? length_of * (squares - largest ^ 2) / others : 0)
}

BEGIN {
    links = 0
    printf "%8s %8s %8s %10s %8s %8s %8s %8s\n",
        "# mcs", "links", "p", "molecules", "largest", "ideal", "others", "weighed"
}

FNR == 1 { for (chain = 0; chain < chains; chain++) parent[chain] = chain }

/^[ \t\r]*$/ || /^#($|[^!])/ { next }

/^#?!/ {
    command = $0
    sub(/^#?!/, "", command)
    sub(/[^A-Za-z0-9_].*$/, "", command)
    if (command == "number_of_monomers") {
        sub(/^[^=]*=/, "")
        if ($0 + 0 != chains * length_of) wrong("there are not as many monomers as the chains have")
    } else if (command == "mcs") {
        sub(/^[^=]*=/, "")
        time = $0 + 0
        if (time >= warm) { show(); frames++ }
    } else if (command == "remove_bonds") wrong("bonds are taken away")
    next
}

command == "add_bonds" { link($1 + 0, $2 + 0) }

END {
    if (failed) exit 1
    if (!frames) wrong("there is no frame from the end of the warm-up on")
}
