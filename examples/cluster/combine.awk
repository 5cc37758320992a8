# The mean over the members of a study, from the last lines of their results: of each column the mean of the members'
# means and its standard error, which is their standard deviation over the root of their number.

FNR == 1 {
    members++
    if ($1 != "#" || $2 != "mcs") bad(FILENAME " has no table of results")
    if (members == 1) for (column = 3; column <= NF; column++) name[column] = $column
}
$1 == "#" && $2 == "mean" {
    means++
    columns = NF
    for (column = 3; column <= NF; column++) { sum[column] += $column; squares[column] += $column ^ 2 }
}

function bad(what) {
    printf "%s\n", what > "/dev/stderr"
    failed = 1
    exit 1
}

END {
    if (failed) exit 1
    if (means != members || means < 2) bad("there are to be two results or more, each with a last line of means")
    printf "%-12s %12s %12s\n", "# column", "mean", "error"
    for (column = 3; column <= columns; column++) {
        mean = sum[column] / means
        variance = (squares[column] / means - mean ^ 2) * means / (means - 1)
        printf "%-12s %12.4f %12.4f\n", name[column], mean, (variance > 0 ? sqrt(variance / means) : 0)
    }
    printf "# of %d members\n", means
}
