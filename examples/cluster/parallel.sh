#!/bin/sh
# Runs an engine on one machine of a list, and sends the job along: sh parallel.sh HOSTS SOLVER ARGS FILE. HOSTS is a
# file for GNU parallel's --sshloginfile, with the name of a machine in each line. GNU parallel asks all of them at the
# same time how many processes run on how many processors. The least busy of those that answer within 30 seconds takes
# the job, by send_ssh.sh.
hosts=$1
shift
host=$(parallel --will-cite --ssh 'ssh -o BatchMode=yes -o ConnectTimeout=10' --timeout 30 --sshloginfile "$hosts" \
    --nonall --tag 'read -r _ _ _ running _ < /proc/loadavg; echo "${running%/*} $(nproc)"' < /dev/null 2> /dev/null |
    awk '{ print $2 / $3, $1 }' | sort -n | sed -n '1s/.* //p')
[ -n "$host" ] || exit 16
exec sh "$(dirname "$0")/send_ssh.sh" "$host" "$@"
