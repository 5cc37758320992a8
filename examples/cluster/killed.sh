# shellcheck shell=sh
# shellcheck disable=SC2154
# What the tests of Slurm and Snakemake share, which read it behind `here`. A test works in the folder `work`, and ends
# the processes that are named in `daemons`.

LC_ALL=C
export LC_ALL
tests=0
failures=0
daemons=
work=$(mktemp -d)
chmod 755 "$work"

say() {
    printf 'test: %s\n' "$1" >&2
}

# Ends the daemons by their ids, and takes the folder away.
clean() {
    for daemon in $daemons; do
        kill "$daemon" 2> /dev/null || true
        wait "$daemon" 2> /dev/null || true
    done
    rm -rf "$work"
}
trap clean EXIT
trap 'exit 1' INT TERM

# leave WHY: what is needed is not there, so nothing is tested.
leave() {
    say "$1: not tested"
    exit 0
}

# same WHAT FOUND WANTED
same() {
    tests=$((tests + 1))
    if [ "$2" != "$3" ]; then
        printf '%s: found [%s], wanted [%s]\n' "$1" "$2" "$3"
        failures=$((failures + 1))
    fi
}

# wait_until SECONDS WHAT COMMAND..: waits until a command succeeds
wait_until() {
    left=$(($1 * 10))
    what=$2
    shift 2
    until "$@" 2> /dev/null; do
        left=$((left - 1))
        if [ "$left" -le 0 ]; then
            say "waited in vain: $what"
            cat "$work"/*log* >&2 || true
            exit 1
        fi
        sleep 0.1
    done
}

# has_bytes FILE BYTES: the file has so many bytes or more
has_bytes() {
    [ -e "$1" ] && [ "$(wc -c < "$1")" -ge "$2" ]
}

# unfinished FOLDER WHOLE: a member has no results, and a part of the trajectory of the whole one
unfinished() {
    same "no results yet" "$([ -e "$1/results.txt" ] && echo there)" ""
    size=$(wc -c < "$1/trajectory.bfm")
    say "killed at $size of $(wc -c < "$2/trajectory.bfm") bytes"
    same "what is written" "$(cksum < "$1/trajectory.bfm")" "$(head -c "$size" "$2/trajectory.bfm" | cksum)"
    same "more to come" "$([ "$size" -lt "$(wc -c < "$2/trajectory.bfm")" ] && echo more)" more
}

# same_study STUDY WHOLE: both members have the same bytes in both
same_study() {
    for seed in 1 2; do
        for file in trajectory.bfm results.txt; do
            same "seed $seed, $file" "$(cksum < "$1/seed$seed/$file")" "$(cksum < "$2/seed$seed/$file")"
        done
        same "seed $seed, what is left over" "$(find "$1/seed$seed" -name '*.part' | wc -l | tr -d ' ')" 0
    done
}

end_tests() {
    echo "$tests tests, $failures failed"
    [ "$failures" -eq 0 ]
}

program=${BFM_CLI:-$here/../../../crates/bfm_cli/out/bfm_cli}
[ -x "$program" ] || leave "there is no program $program"
