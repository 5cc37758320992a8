# The mean of each column of a table of results, and its error, from the lines of later times than `warm`:
#     awk -f blocks.awk warm=6000 [blocks=5] results.txt
# The lines are cut into blocks of the same length, where those that fill none are left out at the beginning; the error is
# the standard deviation of the means of blocks over the root of their number.

function bad(what) {
    printf "%s\n", what > "/dev/stderr"
    failed = 1
    exit 1
}

FNR == 1 {
    if ($1 != "#" || $2 != "mcs") bad(FILENAME " has no table of results")
    if (warm == "") bad("warm is to be told, the time up to which lines do not count")
    header = $0
    if (blocks == "") blocks = 5
}
$1 != "#" && $1 > warm + 0 {
    lines++
    columns = NF
    for (column = 2; column <= NF; column++) value[lines, column] = $column
}

END {
    if (failed) exit 1
    size = int(lines / (blocks > 0 ? blocks : 1))
    if (blocks < 2 || size < 1) bad(lines + 0 " lines do not make " blocks " blocks; two blocks are the least")
    print header
    first = lines - size * blocks
    for (column = 2; column <= columns; column++) {
        sum = squares = 0
        for (block = 0; block < blocks; block++) {
            mean = 0
            for (line = 1; line <= size; line++) mean += value[first + block * size + line, column] / size
            sum += mean / blocks
            means[block] = mean
        }
        for (block = 0; block < blocks; block++) squares += (means[block] - sum) ^ 2
        all = all sprintf(" %10.3f", sum)
        errors = errors sprintf(" %10.3f", sqrt(squares / (blocks - 1) / blocks))
    }
    printf "%8s%s\n%8s%s\n", "# mean", all, "# error", errors
}
