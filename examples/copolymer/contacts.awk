# Counts the contacts of a copolymer, from lines `mcs monomer x y z`. Settings: length_of, the monomers of a chain, side
# of the cubic periodic box, and warm. The first half of each chain is of class 1 and the second of class 2. Two
# monomers are in contact where the squared length of their wrapped difference is 4, 5 or 6. Prints for each frame
# its time, the contacts of the classes 1 and 1, 2 and 2, and 1 and 2, and the share of the last. A frame counts for
# the mean where its time is after `warm`.

function wrapped_square(d) {
    d %= side
    if (d < 0) d += side
    if (2 * d > side) d -= side
    return d * d
}

function frame_done(    i, j, dx, dxy, d, both) {
    count[2] = count[3] = count[4] = 0
    for (i = 1; i <= monomers; i++) {
        for (j = i + 1; j <= monomers; j++) {
            dx = square_of[x[i] - x[j]]
            if (dx > 6) continue
            dxy = dx + square_of[y[i] - y[j]]
            if (dxy > 6) continue
            d = dxy + square_of[z[i] - z[j]]
            if (d >= 4 && d <= 6) count[class[i] + class[j]]++
        }
    }
    show(time, count[2], count[4], count[3])
    if (time > warm) {
        counted++
        sum_first += count[2]; sum_second += count[4]; sum_unlike += count[3]
    }
}

function show(name, first, second, unlike,    all) {
    all = first + second + unlike
    printf "%8s %10.1f %10.1f %10.1f %10.3f\n", name, first, second, unlike, all ? unlike / all : 0
}

function fold(c) {
    c %= side
    return c < 0 ? c + side : c
}

BEGIN { printf "%8s %10s %10s %10s %10s\n", "# mcs", "1 and 1", "2 and 2", "1 and 2", "share" }

FNR == 1 {
    time = $1
    for (d = 1 - side; d < side; d++) square_of[d] = wrapped_square(d)
}
$1 != time { frame_done(); time = $1 }
{
    monomers = $2
    x[$2] = fold($3); y[$2] = fold($4); z[$2] = fold($5)
    class[$2] = ($2 - 1) % length_of < length_of / 2 ? 1 : 2
}

END {
    frame_done()
    if (counted) show("# mean", sum_first / counted, sum_second / counted, sum_unlike / counted)
}
