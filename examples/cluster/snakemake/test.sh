#!/bin/sh
# Runs the workflow under a real Snakemake, kills it with all of its jobs in the midst of the run, and calls it again:
# the study is to come to the bytes of members that ran without a stop. Needs snakemake, setsid and the program.
set -eu
here=$(cd "$(dirname "$0")" && pwd)
# shellcheck source-path=SCRIPTDIR source=../killed.sh
. "$here/../killed.sh"
for command in snakemake setsid; do
    command -v "$command" > /dev/null || leave "there is no $command: install it"
done

# The workflow, in a folder of its own. Its caller gives it a shell of its own, which becomes Snakemake.
workflow() {
    cd "$work"
    exec snakemake -s "$here/Snakefile" --cores 2 --config "study=$work/study" seeds=2 "$@" > "$work/log" 2>&1
}

say "members without a stop"
for seed in 1 2; do
    "$here/../member.sh" "$work/whole/seed$seed" "$seed" > "$work/printed" 2> "$work/said"
done

say "the workflow, killed on its way"
cat > "$work/start" << EOF
cd '$work'
exec snakemake -s '$here/Snakefile' --cores 2 --config 'study=$work/study' seeds=2
EOF
setsid sh "$work/start" > "$work/log" 2>&1 &
leader=$!
wait_until 120 "the first member has a third" has_bytes "$work/study/seed1/trajectory.bfm" \
    $(($(wc -c < "$work/whole/seed1/trajectory.bfm") / 3))
# the shells of its jobs and the program are in its session; some end by themselves between the two calls
kill -KILL "$leader"
for process in $(ps -o pid= --sid "$leader"); do
    kill -KILL "$process" 2> /dev/null || true
done
wait "$leader" 2> /dev/null || true
unfinished "$work/study/seed1" "$work/whole/seed1"

say "the workflow again"
status=0
(workflow) || status=$?
same "a lock is told" "$status $(grep -c -- '--unlock' "$work/log" | sed 's/[1-9][0-9]*/told/')" "1 told"
(workflow --unlock)
(workflow --rerun-incomplete)
same_study "$work/study" "$work/whole"
same "the summary" "$(cksum < "$work/study/summary.txt")" "$(sh "$here/../combine.sh" "$work/whole" | cksum)"
end_tests
