# Read by the benchmarks that time calls of a crate: makes a temporary repository for a program that stands on it, since a
# crate outside the list of crates is not checked by the gate.

# repository WORK NAME CRATE TEXT: makes in the folder WORK a repository of the program NAME with this text as its source,
# over CRATE and all below it, as they stand in this one
repository() {
    mkdir -p "$1/crates/$2/src"
    below=$(sed -n "s/^$3: //p" "$top/crates.txt")
    : > "$1/crates.txt"
    for name in "$3" $below; do
        [ -d "$top/crates/$name" ] || continue
        mkdir -p "$1/crates/$name"
        for part in src specs proofs; do
            rm -rf "$1/crates/$name/$part"
            [ ! -d "$top/crates/$name/$part" ] || cp -r "$top/crates/$name/$part" "$1/crates/$name/$part"
        done
        grep "^$name:" "$top/crates.txt" >> "$1/crates.txt"
    done
    echo "$2: $3 $below" >> "$1/crates.txt"
    cp "$4" "$1/crates/$2/src/main.rt"
}
