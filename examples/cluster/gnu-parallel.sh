#!/bin/bash
# Splits the runs of a search over the processors of this machine, or over hosts, and merges what they print:
#
#   gnu-parallel.sh PIECES RUNS FILE --invoke NAME [..]
#
# Runs 1 to RUNS are made in PIECES pieces, each with its share of the processors. A record that is wanted (--record OUT)
# is written for each piece that finds something, as OUT.I, where I is the first run of the piece. The status is the worst
# of those of the pieces. PARALLEL_OPTIONS has options for GNU parallel, as `--sshloginfile hosts`; WATHREAD the program.
usage() {
    echo "usage: gnu-parallel.sh PIECES RUNS FILE --invoke NAME [words of a search, but no --from, --runs and --jobs]" >&2
    exit 3
}
[ $# -ge 3 ] && [[ $1 =~ ^[1-9][0-9]*$ && $2 =~ ^[1-9][0-9]*$ ]] || usage
command -v parallel > /dev/null || { echo "gnu-parallel.sh: GNU parallel isn't there (apt-get install parallel)" >&2; exit 5; }
pieces=$1 runs=$2 here=$(cd "$(dirname "$0")" && pwd) words='' record=''
shift 2
while [ $# -gt 0 ]; do
    case $1 in
    --from | --from=* | --runs | --runs=* | --jobs | --jobs=*) usage ;;
    --record) [ $# -ge 2 ] || usage; record=$2; shift ;;
    --record=*) record=${1#--record=} ;;
    --) break ;;
    *) words+=" $(printf %q "$1")" ;;
    esac
    shift
done
# words behind `--` stay the last ones
rest=''
for word in "$@"; do rest+=" $(printf %q "$word")"; done
each=$(((runs + pieces - 1) / pieces)) share=$((($(nproc) + pieces - 1) / pieces))
# (a piece is the number of its first run; the last piece has the runs that are left)
run="n=$each; [ \$(({} + n - 1)) -le $runs ] || n=\$(($runs - {} + 1)); $(printf %q "${WATHREAD:-wathread}") search$words"
kept=''
[ -z "$record" ] || kept=" --record $(printf %q "$record").{}"
run+=" --from {} --runs \$n --jobs $share$kept$rest; echo status \$?"
# shellcheck disable=SC2086
seq 1 "$each" "$runs" | parallel --will-cite ${PARALLEL_OPTIONS:-} --jobs "$pieces" "$run" | python3 "$here/merge.py"
