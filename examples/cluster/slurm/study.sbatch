#!/bin/sh
# A Slurm job array with one task for each seed. Submit it again to go on where it stopped.
#     sbatch study.sbatch [FOLDER]     the folder of the study is ./study where it is left out
#SBATCH --job-name=bfm
#SBATCH --array=1-8
#SBATCH --ntasks=1
#SBATCH --cpus-per-task=1
#SBATCH --mem=500M
#SBATCH --time=00:30:00
#SBATCH --requeue
#SBATCH --output=bfm-%A-%a.log
set -eu
if [ -z "${SLURM_ARRAY_TASK_ID:-}" ]; then
    echo "study.sbatch: there is no SLURM_ARRAY_TASK_ID: submit it by sbatch" >&2
    exit 1
fi
# Slurm runs a copy of this script, so the place of the examples is told, or taken from where sbatch was called.
examples=${BFM_EXAMPLES:-${SLURM_SUBMIT_DIR:-.}/../..}
if [ ! -x "$examples/cluster/member.sh" ]; then
    echo "study.sbatch: there is no $examples/cluster/member.sh: call sbatch in examples/cluster/slurm, or set BFM_EXAMPLES" >&2
    exit 1
fi
study=${1:-${SLURM_SUBMIT_DIR:-.}/study}
exec "$examples/cluster/member.sh" "$study/seed$SLURM_ARRAY_TASK_ID" "$SLURM_ARRAY_TASK_ID"
