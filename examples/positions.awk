# Prints the positions of each frame of a file that bfm_cli wrote, one line for each monomer:
#     mcs monomer x y z
# Run it with LC_ALL=C, since an identifier of a bond vector is a byte. It ends with status 1 where a frame is
# not whole or a line has another form.

function wrong(what) {
    printf "line %d of the trajectory: %s\n", FNR, what > "/dev/stderr"
    failed = 1
    exit 1
}

function take_number() {
    if (!match(rest, /^[ \t]*-?[0-9]+/)) wrong("no frame line")
    number = substr(rest, 1, RLENGTH) + 0
    rest = substr(rest, RLENGTH + 1)
    return number
}

function put() {
    placed++
    if (placed > monomers) wrong("more monomers than the file has")
    print mcs, placed, x, y, z
}

/^[ \t]*$/ || /^#($|[^!])/ { next }

/^#?!/ {
    if (frames && placed != monomers) wrong("the frame before it is cut short")
    command = $0
    sub(/^#?!/, "", command)
    sub(/[^A-Za-z0-9_].*$/, "", command)
    value = $0
    sub(/^[^=]*=/, "", value)
    if (command == "number_of_monomers") monomers = value + 0
    if (command == "mcs") { mcs = value + 0; placed = 0; frames++ }
    next
}

command == "set_of_bondvectors" {
    split($0, sides, ":")
    split(sides[1], vector, " ")
    byte = sprintf("%c", sides[2] + 0)
    step_x[byte] = vector[1] + 0
    step_y[byte] = vector[2] + 0
    step_z[byte] = vector[3] + 0
    next
}

command == "mcs" {
    rest = $0
    x = take_number()
    y = take_number()
    z = take_number()
    put()
    for (i = 2; i <= length(rest); i++) {
        byte = substr(rest, i, 1)
        if (!(byte in step_x)) wrong("a byte that is no identifier")
        x += step_x[byte]
        y += step_y[byte]
        z += step_z[byte]
        put()
    }
}

END {
    if (failed) exit 1
    if (!frames) wrong("there is no frame")
    if (placed != monomers) wrong("the last frame is cut short")
}
