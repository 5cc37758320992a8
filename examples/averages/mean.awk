# Means over the lines that frames.awk prints, for one run or for several with a label each. Prints for each time the mean
# squared radius of gyration, the mean squared distance of the ends, and the mean squared displacements of monomers and of
# centres of mass, in lattice units squared. Settings: blocks, for the errors of one run, and size: where it is given,
# only molecules of so many monomers count.
# One run: the last lines are the means of the first two columns over the last frames, as many as fill the blocks, and
# their errors. Several: behind each mean stands its error from the scatter of the runs, and the last line has the means
# of the runs' means over all frames.

function wrong(what) {
    printf "%s\n", what > "/dev/stderr"
    failed = 1
    exit 1
}

function value(fraction,    parts) {
    split(fraction, parts, "/")
    return parts[1] / parts[2]
}

# the error of the mean of `count` numbers that are independent, from their sum and the sum of their squares
function error_of(sum, squares, count,    variance) {
    variance = (squares / count - (sum / count) ^ 2) * count / (count - 1)
    return variance > 0 ? sqrt(variance / count) : 0
}

# the mean of a column over frames `low` to `high` of a run
function over_frames(column, run, low, high,    f, sum) {
    for (f = low; f <= high; f++) sum += mean[column, run, f]
    return sum / (high - low + 1)
}

# the mean of a column over the last whole blocks of the only run, and its error
function of_blocks(column,    length_of, b, low, m, sum, squares) {
    length_of = int(frames[1] / blocks)
    for (b = 0; b < blocks; b++) {
        low = frames[1] - (blocks - b) * length_of + 1
        m = over_frames(column, 1, low, low + length_of - 1)
        sum += m
        squares += m ^ 2
    }
    block_mean = sum / blocks
    return error_of(sum, squares, blocks)
}

$1 != label || !runs { runs++; label = $1; frames[runs] = 0 }
$2 == "radii" && (!frames[runs] || $3 != time[runs, frames[runs]]) { time[runs, ++frames[runs]] = $3 }
{ key = runs SUBSEP frames[runs] }
$4 == "monomers" { mean["monomers", key] = value($5) }
$4 == "molecule" && (!size || $6 == size) {
    count[$2, key]++
    if ($2 == "radii") { radius[key] += value($7); end[key] += $8 } else centre[key] += value($7)
}

function settle(    r, f, key) {
    for (r = 1; r <= runs; r++) for (f = 1; f <= frames[r]; f++) {
        key = r SUBSEP f
        if (!count["radii", key]) wrong("no molecule counts")
        if (frames[r] != frames[1] || time[r, f] != time[1, f]) wrong("the runs have frames at other times")
        mean["radius", key] = radius[key] / count["radii", key]
        mean["end", key] = end[key] / count["radii", key]
        mean["centre", key] = centre[key] / count["moves", key]
    }
}

function show_run(    f, c) {
    printf "%10s %12s %12s %12s %12s\n", "# mcs", "radius^2", "end^2", "monomers^2", "centres^2"
    for (f = 1; f <= frames[1]; f++) {
        printf "%10s", time[1, f]
        for (c = 1; c <= 4; c++) printf " %12.4f", mean[column[c], 1, f]
        printf "\n"
    }
    for (c = 1; c <= 2; c++) { error[c] = of_blocks(column[c]); whole[c] = block_mean }
    printf "%10s %12.4f %12.4f\n%10s %12.4f %12.4f\n", "# mean", whole[1], whole[2], "# error", error[1], error[2]
}

# the mean of a column over the runs, at a frame or, at 0, of their means over frames, and its error
function show_cell(c, f,    r, m, sum, squares) {
    for (r = 1; r <= runs; r++) {
        m = f ? mean[c, r, f] : over_frames(c, r, 1, frames[r])
        sum += m
        squares += m ^ 2
    }
    printf " %12.4f %10.4f", sum / runs, error_of(sum, squares, runs)
}

function show_runs(    f, c) {
    printf "%10s", "# mcs"
    for (c = 1; c <= 4; c++) printf " %12s %10s", title[c], "error"
    printf "\n"
    for (f = 1; f <= frames[1]; f++) {
        printf "%10s", time[1, f]
        for (c = 1; c <= 4; c++) show_cell(column[c], f)
        printf "\n"
    }
    printf "%10s", "# mean"
    for (c = 1; c <= 2; c++) show_cell(column[c], 0)
    printf "\n"
}

END {
    if (failed) exit 1
    if (!runs) wrong("there are no tables")
    split("radius end monomers centre", column, " ")
    split("radius^2 end^2 monomers^2 centres^2", title, " ")
    settle()
    if (failed) exit 1
    if (runs > 1) show_runs()
    else if (blocks < 2 || frames[1] < blocks) wrong("one run takes two blocks or more, and as many frames")
    else show_run()
}
