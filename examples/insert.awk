# Prints a file with the lines of another one, named by `lines`, in its header, right before its first `!mcs`. Run it
# with LC_ALL=C, since frames hold raw bytes.

!inserted && /^#?!mcs[^A-Za-z0-9_]/ {
    while ((status = (getline line < lines)) > 0) print line
    if (status < 0) {
        printf "there is no file %s\n", lines > "/dev/stderr"
        exit 1
    }
    inserted = 1
}

{ print }

END {
    if (!inserted && !(status < 0)) print "there is no frame to put lines before" > "/dev/stderr"
    if (!inserted) exit 1
}
