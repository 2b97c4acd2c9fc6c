#!/bin/bash
#SBATCH --array=0-99
#SBATCH --output=search-%A-%a.txt
# Each task of the array makes EACH runs (10000), with the processors that it has:
#
#   sbatch slurm.sh FILE --invoke NAME [words of a search, but no --from, --runs and --jobs]
#   cat search-*.txt | python3 merge.py
#
# A record that is wanted (--record OUT) is written for each task that finds something, as OUT.I, where I is the first run
# of the task. The status of merge.py is the worst of those of the tasks.
[ $# -ge 1 ] && [ -n "${SLURM_ARRAY_TASK_ID-}" ] || {
    echo "usage: sbatch slurm.sh FILE --invoke NAME [words of a search, but no --from, --runs and --jobs]" >&2
    exit 3
}
each=${EACH:-10000} from=$((SLURM_ARRAY_TASK_ID * ${EACH:-10000} + 1)) words=()
while [ $# -gt 0 ]; do
    case $1 in
    --record) words+=(--record "$2.$from"); shift ;;
    --record=*) words+=("$1.$from") ;;
    --) break ;;
    *) words+=("$1") ;;
    esac
    shift
done
srun "${WATHREAD:-wathread}" search "${words[@]}" --from "$from" --runs "$each" \
    --jobs "${SLURM_CPUS_PER_TASK:-1}" "$@"
echo "status $?"
