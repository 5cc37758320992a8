# Hands the frames of a trajectory to bfm_cli, one by one, and prints the tables of `radii` and `moves`, each line with
# a label, its job and the time before it. A frame is handed over as a file of its own: the header, the first frame that
# counts, the bonds that changed since, and the frame. So displacements are those since the first frame that counts.
# Settings: program, the path of bfm_cli, part, a file for its output, from, the time before which frames do not count,
# and label. Run it with LC_ALL=C on the kept part of a trajectory, since an identifier of a bond vector is a byte.

function wrong(what) {
    printf "line %d of the trajectory: %s\n", FNR, what > "/dev/stderr"
    failed = 1
    exit 1
}

function quoted(path) {
    gsub(/'/, "'\\''", path)
    return "'" path "'"
}

function table(job,    command, i, line) {
    command = quoted(program) " " job " > " quoted(part)
    for (i = 1; i <= headers; i++) print header[i] | command
    for (i = 1; i <= firsts; i++) print first[i] | command
    if (!is_first) {
        for (i = 1; i <= changes; i++) print change[i] | command
        for (i = 1; i <= lines; i++) print frame[i] | command
    }
    if (close(command)) wrong("bfm_cli " job " failed at the time " time)
    while ((getline line < part) > 0) print label, job, time, line
    close(part)
}

function frame_done(    i) {
    if (!lines || time < from) { lines = 0; return }
    is_first = !firsts
    if (is_first) for (i = 1; i <= lines; i++) first[++firsts] = frame[i]
    table("radii")
    table("moves")
    lines = 0
}

/^#?!/ {
    frame_done()
    command = $0
    sub(/^#?!/, "", command)
    sub(/[^A-Za-z0-9_].*$/, "", command)
    if (command == "mcs") {
        begun = 1
        time = $0
        sub(/^[^=]*=/, "", time)
        time += 0
    }
    if (begun && (command == "add_bonds" || command == "remove_bonds") && !firsts)
        wrong("bonds change before the first frame that counts")
}

!begun { header[++headers] = $0 }
begun && command == "mcs" { frame[++lines] = $0 }
begun && (command == "add_bonds" || command == "remove_bonds") { change[++changes] = $0 }

END {
    if (!failed) frame_done()
    if (failed || !firsts) {
        if (!failed) print "no frame of the trajectory counts" > "/dev/stderr"
        exit 1
    }
}
