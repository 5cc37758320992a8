# Heights of a brush, from lines `mcs monomer x y z`. Settings: length_of, the monomers of a chain, and warm. Prints
# for each frame its time, the mean height of all monomers, that of the free ends, the greatest height, in lattice
# units, and how many feet have left their places. A frame counts for the mean where its time is after `warm`.

function frame_done(    m, all, ends, chains, greatest, moved) {
    all = ends = chains = greatest = moved = 0
    for (m = 1; m <= monomers; m++) {
        all += z[m]
        if (z[m] > greatest) greatest = z[m]
        if (m % length_of == 0) { ends += z[m]; chains++ }
        if (m % length_of == 1 || length_of == 1) {
            if (!(m in foot)) foot[m] = x[m] " " y[m] " " z[m]
            if (foot[m] != x[m] " " y[m] " " z[m]) moved++
        }
    }
    show(time, all / monomers, ends / chains, greatest, moved)
    if (time > warm) {
        counted++
        sum_all += all / monomers; sum_ends += ends / chains
        sum_greatest += greatest; sum_moved += moved
    }
}

function show(name, all, ends, greatest, moved) {
    printf "%8s %10.3f %10.3f %10.3f %10d\n", name, all, ends, greatest, moved
}

BEGIN { printf "%8s %10s %10s %10s %10s\n", "# mcs", "height", "ends", "greatest", "feet moved" }

FNR == 1 { time = $1 }
$1 != time { frame_done(); time = $1 }
{ monomers = $2; x[$2] = $3; y[$2] = $4; z[$2] = $5 }

END {
    frame_done()
    if (counted) show("# mean", sum_all / counted, sum_ends / counted, sum_greatest / counted, sum_moved)
}
