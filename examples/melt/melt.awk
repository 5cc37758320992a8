# Sizes of the chains of a melt, from lines `mcs monomer x y z`. Settings: length_of, the monomers of a chain, side
# and warm. Prints for each frame its time, the mean squares of the length of a bond, of the distance between the
# ends of a chain and of its radius of gyration, in lattice units squared, and the share of the monomers that is in
# the upper half of the box. A frame counts for the mean where its time is after `warm`.

function square(i, j) {
    return (x[i] - x[j]) ^ 2 + (y[i] - y[j]) ^ 2 + (z[i] - z[j]) ^ 2
}

function frame_done(    first, last, m, bonds, bond, end, gyration, sx, sy, sz, ss, upper, h) {
    bond = bonds = end = gyration = upper = 0
    for (first = 1; first <= monomers; first += length_of) {
        last = first + length_of - 1
        sx = sy = sz = ss = 0
        for (m = first; m <= last; m++) {
            sx += x[m]; sy += y[m]; sz += z[m]
            ss += x[m] ^ 2 + y[m] ^ 2 + z[m] ^ 2
            if (m > first) { bond += square(m, m - 1); bonds++ }
            h = z[m] % side
            if (h < 0) h += side
            if (h >= side / 2) upper++
        }
        end += square(first, last)
        gyration += ss / length_of - (sx ^ 2 + sy ^ 2 + sz ^ 2) / length_of ^ 2
    }
    chains = monomers / length_of
    show(time, bond / bonds, end / chains, gyration / chains, upper / monomers)
    if (time > warm) {
        counted++
        sum_bond += bond / bonds; sum_end += end / chains
        sum_gyration += gyration / chains; sum_upper += upper / monomers
    }
}

function show(name, bond, end, gyration, upper) {
    printf "%8s %10.3f %10.3f %10.3f %10.3f\n", name, bond, end, gyration, upper
}

BEGIN { printf "%8s %10s %10s %10s %10s\n", "# mcs", "bond^2", "end^2", "gyration^2", "upper" }

FNR == 1 { time = $1 }
$1 != time { frame_done(); time = $1 }
{ monomers = $2; x[$2] = $3; y[$2] = $4; z[$2] = $5 }

END {
    frame_done()
    if (counted) show("# mean", sum_bond / counted, sum_end / counted, sum_gyration / counted, sum_upper / counted)
}
