# shellcheck shell=sh
# shellcheck disable=SC2154
# What the examples share. A run.sh sets `example`, its name, and `here`, its folder, and reads this file.
# Later calls ask for `seed`, `every` and `part` as well, which the run.sh sets.

# Frames hold raw bytes, so no tool may take them for letters of a language.
LC_ALL=C
export LC_ALL

say() {
    printf '%s: %s\n' "$example" "$1" >&2
}

fail() {
    say "$1"
    exit 1
}

# The program: $BFM_CLI, or the one that `rt run` makes in this repository.
find_program() {
    program=${BFM_CLI:-$here/../../crates/bfm_cli/out/bfm_cli}
    if [ -f "$program" ] && [ -x "$program" ]; then
        return
    fi
    case $program in
    */*) ;;
    *) if command -v "$program" > /dev/null; then return; fi ;;
    esac
    fail "there is no program $program: make it by 'cd crates/bfm_cli && rt run', or name it by BFM_CLI"
}

# open_folder FOLDER SETTINGS: makes the folder, or goes on with one that the same example left, with
# the same settings. Any other folder that holds something is refused, so nothing is overwritten.
open_folder() {
    folder=$1
    if [ -f "$folder/settings.txt" ]; then
        if [ "$(cat "$folder/settings.txt")" != "$2" ]; then
            fail "$folder was made with other settings (settings.txt): name another folder"
        fi
        say "goes on in $folder"
        return
    fi
    if [ -e "$folder" ]; then
        if [ ! -d "$folder" ] || [ -n "$(ls -A "$folder")" ]; then
            fail "$folder is there and not from this example: name another folder"
        fi
    fi
    mkdir -p "$folder"
    printf '%s\n' "$2" > "$folder/settings.part"
    mv "$folder/settings.part" "$folder/settings.txt"
    say "writes into $folder"
}

# meaning STATUS: what a status of the program says.
meaning() {
    case $1 in
    2) echo "a word is wrong or missing" ;;
    3) echo "the input is refused" ;;
    4) echo "the box has too little room" ;;
    5) echo "reading failed" ;;
    6) echo "writing failed" ;;
    7) echo "want of memory" ;;
    8) echo "the input is longer than the limit" ;;
    9) echo "writing the report failed" ;;
    10) echo "the run would come too far" ;;
    *) echo "it was stopped, or is not bfm_cli" ;;
    esac
}

# job INPUT WORDS..: runs the program over an input, and writes to the output of this call. Its report is
# left in report.part; where it fails, all ends with status and report.
job() {
    input=$1
    shift
    status=0
    "$program" "$@" < "$input" 2> "$folder/report.part" || status=$?
    if [ "$status" -eq 0 ]; then
        return
    fi
    report=$(head -n 3 "$folder/report.part")
    case $status-$report in
    3-*NoFrame) fail "$input is cut short, it holds no whole frame: take it away to begin anew" ;;
    esac
    fail "bfm_cli $* < $input ended with status $status, $(meaning "$status"): $report"
}

# build_start WORDS..: builds start.bfm, where it does not stand yet.
build_start() {
    if [ ! -e "$folder/start.bfm" ]; then
        say "builds $*"
        job /dev/null build "$@" > "$folder/start.part"
        monomers=$(fact monomers start.part)
        say "the start has $monomers monomers"
        mv "$folder/start.part" "$folder/start.bfm"
    fi
}

# insert_lines LINES FILE: puts the lines of one file into the header of start.bfm, right before its first frame,
# and writes that as the other file, where it does not stand yet.
insert_lines() {
    if [ ! -e "$folder/$2" ]; then
        awk -v lines="$folder/$1" -f "$here/../insert.awk" "$folder/start.bfm" > "$folder/$2.part"
        mv "$folder/$2.part" "$folder/$2"
    fi
}

# begin_from START FILE: begins a trajectory with a start, where it does not stand yet.
begin_from() {
    if [ ! -e "$folder/$2" ]; then
        cp "$folder/$1" "$folder/$2.part"
        mv "$folder/$2.part" "$folder/$2"
    fi
}

# fact NAME FILE: a number that `info` tells of a file.
fact() {
    job "$folder/$2" info > "$folder/info.part"
    number=$(awk -v name="$1" '$1 == name { print $2 }' "$folder/info.part")
    case $number in
    '' | *[!0-9]*) fail "$program tells no number of $1 for $folder/$2: is it bfm_cli?" ;;
    esac
    echo "$number"
}

# check_whole FILE: ends where the file holds no whole frame, or a command that the program does not
# know; tells where it is cut short behind a whole frame.
check_whole() {
    skipped=$(fact skipped "$1")
    if [ "$skipped" -ne 0 ]; then
        fail "$folder/$1 has $skipped commands that bfm_cli does not know"
    fi
    kept=$(fact kept "$1")
    if [ "$kept" -ne "$(wc -c < "$folder/$1")" ]; then
        say "$folder/$1 is cut short: goes on from its last whole frame"
    fi
}

# advance FILE LAST WHAT WORDS..: goes on with a trajectory to the time LAST, in parts of `part` frames. A
# part is written beside the file and takes its place once it is whole, so a stop loses no more than one
# part. The parts come to the bytes of one run, since `seed`, `every` and further words of the run stay.
advance() {
    trajectory=$1
    until=$2
    what=$3
    shift 3
    check_whole "$trajectory"
    time=$(fact mcs "$trajectory")
    while [ "$time" -lt "$until" ]; do
        frames=$(((until - time) / every))
        if [ "$frames" -gt "$part" ]; then
            frames=$part
        fi
        if [ "$frames" -eq 0 ]; then
            fail "$folder/$trajectory stands at $time, from where no whole number of $every sweeps leads to $until"
        fi
        job "$folder/$trajectory" run "seed=$seed" "frames=$frames" "every=$every" "$@" > "$folder/$trajectory.part"
        mv "$folder/$trajectory.part" "$folder/$trajectory"
        mv "$folder/report.part" "$folder/report.txt"
        time=$(fact mcs "$trajectory")
        say "$what: $time of $until sweeps"
    done
}

# measure FILE RESULTS SCRIPT SETTING..: writes the results of a trajectory by the example's awk script,
# where they do not stand yet. Each setting is NAME=NUMBER.
measure() {
    trajectory=$1
    results=$2
    script=$3
    shift 3
    if [ ! -e "$folder/$results" ]; then
        say "measures $trajectory"
        awk -f "$here/../positions.awk" "$folder/$trajectory" > "$folder/positions.part"
        awk -f "$here/$script" "$@" "$folder/positions.part" > "$folder/$results.part"
        mv "$folder/$results.part" "$folder/$results"
    fi
}

# finish RESULTS..: takes away what was needed on the way, and prints the results.
finish() {
    rm -f "$folder/positions.part" "$folder/info.part" "$folder/report.part"
    for results in "$@"; do
        say "results in $folder/$results"
        cat "$folder/$results"
    done
}
