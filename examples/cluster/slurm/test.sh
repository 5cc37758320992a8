#!/bin/sh
# Runs the job array under a real Slurm on this machine: munged, slurmctld and slurmd with slurm.conf, in a folder of
# their own, which it ends again. A task is killed in the midst of its run and submitted again; the study is to come to
# the bytes of members that ran without a stop. Needs root, slurm-wlm and munge, and the program.
set -eu
here=$(cd "$(dirname "$0")" && pwd)
# shellcheck source-path=SCRIPTDIR source=../killed.sh
. "$here/../killed.sh"
[ "$(id -u)" -eq 0 ] || leave "needs root, for slurmd"
for command in munged slurmctld slurmd sbatch squeue scancel sinfo; do
    command -v "$command" > /dev/null || leave "there is no $command: install slurm-wlm and munge"
done

# Starts a daemon in the foreground, and notes its id.
daemon() {
    "$@" > /dev/null 2>> "$work/daemons.log" &
    daemons="$! $daemons"
}

# Waits until no task of the array is left.
wait_for_jobs() {
    wait_until 300 "the queue is empty" no_jobs
}

no_jobs() {
    queue=$(squeue -h) && [ -z "$queue" ]
}

idle() {
    [ "$(sinfo -h -o %t)" = idle ]
}

mkdir -m 700 "$work/munge"
mkdir "$work/state" "$work/spool"
head -c 128 /dev/urandom > "$work/munge/key"
chmod 600 "$work/munge/key"
sed "s|HOST|$(hostname -s)|; s|FOLDER|$work|" "$here/slurm.conf" > "$work/slurm.conf"
SLURM_CONF=$work/slurm.conf
export SLURM_CONF
# clients come by the socket, so its folder is open to them, which munged allows by force alone
chmod 711 "$work/munge"
daemon munged --foreground --force --socket="$work/munge/socket" --key-file="$work/munge/key" \
    --pid-file="$work/munge/pid" --seed-file="$work/munge/seed" --log-file="$work/munge/log"
wait_until 20 "munged answers" test -S "$work/munge/socket"
daemon slurmctld -D
daemon slurmd -D
wait_until 60 "the node is idle" idle
same "the version" "$(sinfo -V | cut -d ' ' -f 1)" "slurm-wlm"

say "members without a stop"
for seed in 1 2; do
    "$here/../member.sh" "$work/whole/seed$seed" "$seed" > "$work/printed" 2> "$work/said"
done

say "the array, whose first task is killed on its way"
cd "$here"
job=$(sbatch --parsable --array=1-2 --mem=200M --output="$work/log-%A-%a" study.sbatch "$work/study")
wait_until 120 "the first member has a third" has_bytes "$work/study/seed1/trajectory.bfm" \
    $(($(wc -c < "$work/whole/seed1/trajectory.bfm") / 3))
scancel --signal=KILL --full "${job}_1"
wait_for_jobs
unfinished "$work/study/seed1" "$work/whole/seed1"
same "the second task" "$(cksum < "$work/study/seed2/trajectory.bfm")" "$(cksum < "$work/whole/seed2/trajectory.bfm")"

say "the array again"
before=$(ls -l --time-style=full-iso "$work/study/seed2/trajectory.bfm")
sbatch --parsable --array=1-2 --mem=200M --output="$work/log-%A-%a" study.sbatch "$work/study" > "$work/printed"
wait_for_jobs
same "the finished member stays" "$(ls -l --time-style=full-iso "$work/study/seed2/trajectory.bfm")" "$before"
same_study "$work/study" "$work/whole"
end_tests
