#!/bin/sh
# Runs an engine through Slurm, whose nodes have the same folders as this machine: sh far_srun.sh SOLVER ARGS. The words
# of any engine line may follow. Where sby itself runs in a job, the engine is a step of that, else a job of its own.
# Variables of srun say more: SLURM_PARTITION, SLURM_TIMELIMIT, SLURM_MEM_PER_CPU and so on.
dir=$(mktemp -d) && mkfifo "$dir/life" && : > "$dir/output" || exit 16
exec 3<> "$dir/life" 4< "$dir/life" 5> "$dir/life" 3<&- 6> "$dir/output" 7< "$dir/output" 8<&0
rm -r "$dir"
name=sby-${dir##*.}

# Where srun is killed its job stays. So a watcher in a session of its own, which the kill doesn't reach, has the other
# end of the fifo: it reads a line once srun has ended, or the fifo's end where this script was killed. Then it kills
# the step, which may be deaf to what a cancelled job is sent, and cancels the job. It does so three times, since a
# request for the job may still be on its way.
setsid sh -c 'read -r _ && exit
    for _ in 1 2 3; do
        squeue --steps --user="$(id -un)" --noheader --format="%j %i" | sed -n "s/^$1 //p" |
            xargs -r scancel --quiet --signal=KILL
        scancel --quiet --name="$1"
        sleep 1
    done' watcher "$name" <&4 > /dev/null 2>&1 5>&- 6>&- 7<&- 8<&- &
exec 4<&-

# A minute after the solver's end srun gives up what isn't read yet (EioTimeout), and a judge may need longer. So the
# output goes into a file without a name, from which it is passed on.
srun --quiet --job-name="$name" --nodes=1 --ntasks=1 --exact "$@" <&8 >&6 5>&- 6>&- 7<&- 8<&- &
srun=$!
tail --pid="$srun" --sleep-interval=0.1 --bytes=+1 --follow <&7 5>&- 6>&- 7<&- 8<&- &
tail=$!
wait "$srun"
status=$?
echo ended >&5
wait "$tail"
exit "$status"
