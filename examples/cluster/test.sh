#!/bin/sh
# Tests the study: what it refuses, the means of members, and, with the program at hand, a task of the job array under
# variables as Slurm sets them, stopped in the midst of writing and called again. Ends with status 1 where one fails.
set -eu
here=$(cd "$(dirname "$0")" && pwd)
LC_ALL=C
export LC_ALL
work=$(mktemp -d)
trap 'rm -rf "$work"' EXIT
tests=0
failures=0

# same WHAT FOUND WANTED
same() {
    tests=$((tests + 1))
    if [ "$2" != "$3" ]; then
        printf '%s: found [%s], wanted [%s]\n' "$1" "$2" "$3"
        failures=$((failures + 1))
    fi
}

# refuses WHAT TEXT COMMAND..: a command ends with status 1 and says this text on standard error
refuses() {
    what=$1
    text=$2
    shift 2
    found=0
    "$@" > "$work/said_out" 2> "$work/said" || found=$?
    same "$what, status" "$found" 1
    tests=$((tests + 1))
    if ! grep -q -e "$text" "$work/said"; then
        printf '%s: no line with [%s] in: %s\n' "$what" "$text" "$(cat "$work/said")"
        failures=$((failures + 1))
    fi
}

# task NUMBER: a task of the job array, as Slurm calls it: a copy of the script, and the variables that it sets
task() {
    cp "$here/slurm/study.sbatch" "$work/slurm_script"
    env SLURM_ARRAY_TASK_ID="$1" SLURM_SUBMIT_DIR="$here/slurm" sh "$work/slurm_script" "$work/study"
}

# The means 2, 4 and 6: their mean is 4, their variance 4, the error 2 / sqrt(3) = 1.1547.
for value in 2 4 6; do
    mkdir -p "$work/made/seed$value"
    printf '   # mcs     bond^2\n     200      9.000\n  # mean      %d.000\n' "$value" > "$work/made/seed$value/results.txt"
done
same "means" "$(sh "$here/combine.sh" "$work/made" | tr -s ' \n' ' ,')" "# column mean error,bond^2 4.0000 1.1547,# of 3 members,"
mkdir "$work/made/seed7"
same "an unfinished member" "$(sh "$here/combine.sh" "$work/made" 2>&1 | head -n 1)" \
    "combine.sh: 1 members in $work/made are not finished, and left out"
echo "nothing" > "$work/made/seed7/results.txt"
refuses "a file of another kind" "has no table" sh "$here/combine.sh" "$work/made"
refuses "no study" "takes the folder" sh "$here/combine.sh" "$work/none"
refuses "no member" "no member" sh "$here/combine.sh" "$work"

refuses "no array" "no SLURM_ARRAY_TASK_ID" env -u SLURM_ARRAY_TASK_ID sh "$here/slurm/study.sbatch"
refuses "another folder" "no $work/../../cluster/member.sh" \
    env SLURM_ARRAY_TASK_ID=1 SLURM_SUBMIT_DIR="$work" sh "$here/slurm/study.sbatch"
refuses "a seed that is none" "whole number" sh "$here/member.sh" "$work/new" -1
refuses "no seed" "takes a folder and a seed" sh "$here/member.sh" "$work/new"
refuses "no program" "there is no program" env BFM_CLI="$work/none" sh "$here/member.sh" "$work/new" 1
refuses "a foreign folder" "not from this example" env BFM_CLI=/bin/true sh "$here/member.sh" "$work/made" 1

program=${BFM_CLI:-$here/../../crates/bfm_cli/out/bfm_cli}
if [ -x "$program" ]; then
    task 3 > "$work/printed" 2> "$work/said"
    same "a task" "$(cksum < "$work/printed")" "$(cksum < "$work/study/seed3/results.txt")"
    # A task that was killed: the file has a third of it, and a part of two thirds was being written.
    cp -r "$work/study" "$work/whole"
    rm "$work/study/seed3/results.txt"
    size=$(wc -c < "$work/whole/seed3/trajectory.bfm")
    head -c $((size / 3)) "$work/whole/seed3/trajectory.bfm" > "$work/study/seed3/trajectory.bfm"
    head -c $((size * 2 / 3)) "$work/whole/seed3/trajectory.bfm" > "$work/study/seed3/trajectory.bfm.part"
    task 3 > "$work/printed" 2> "$work/said"
    same "what was written is kept" "$(grep -c 'keeps what was written' "$work/said")" 1
    for file in trajectory.bfm results.txt; do
        same "a task that was killed, $file" "$(cksum < "$work/study/seed3/$file")" "$(cksum < "$work/whole/seed3/$file")"
    done
    same "what is left over" "$(find "$work/study/seed3" -name '*.part' | wc -l | tr -d ' ')" 0
    if command -v flock > /dev/null; then
        exec 8> "$work/study/seed3/lock"
        flock 8
        refuses "a folder at work" "another call works" sh "$here/member.sh" "$work/study/seed3" 3
        exec 8>&-
    fi
else
    echo "there is no program $program: what needs it was not tested"
fi

echo "$tests tests, $failures failed"
[ "$failures" -eq 0 ]
