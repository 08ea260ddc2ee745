#!/bin/sh
# Runs an engine through Slurm, and sends the job along, so no folder is shared: sh send_srun.sh SOLVER ARGS FILE. The
# solver gets FILE as its standard input.
for file; do :; done
turns=$#
while [ "$turns" -gt 1 ]; do
    set -- "$@" "$1"
    shift
    turns=$((turns - 1))
done
shift
exec sh "$(dirname "$0")/far_srun.sh" "$@" < "$file"
