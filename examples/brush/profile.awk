# The profile of a brush, from lines `mcs monomer x y z`. Settings: height, of the box, and warm. Prints for each height
# in lattice units how many monomers begin there, as the mean over the frames whose time is after `warm`.

$1 > warm {
    if (!($1 in seen)) { seen[$1] = 1; frames++ }
    monomers[$5]++
}

END {
    printf "%8s %10s\n", "# height", "monomers"
    for (z = 0; frames && z <= height - 2; z++) printf "%8d %10.3f\n", z, monomers[z] / frames
}
