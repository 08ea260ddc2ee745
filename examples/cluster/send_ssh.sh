#!/bin/sh
# Runs an engine on another machine over ssh, and sends the job along, so no folder is shared:
# sh send_ssh.sh HOST SOLVER ARGS FILE. The solver gets FILE as its standard input; what it prints comes back, with its
# exit status. Ports, keys and names of users belong in ~/.ssh/config.
host=$1
shift
words=
while [ $# -gt 1 ]; do
    words="$words '$(printf %s "$1" | sed "s/'/'\\\\''/g")'"
    shift
done
size=$(wc -c < "$1") || exit 16

# The connection's input is the job's bytes, and then stays open: ssh itself has both ends of the fifo, and no other
# process has one but cat, which ends.
dir=$(mktemp -d) && mkfifo "$dir/input" || exit 16
exec 3<> "$dir/input" 4> "$dir/input"
rm -r "$dir"
cat "$1" >&4 3<&- 4>&- &
exec 4>&-

# Over there the solver runs in a session of its own. A watcher reads the connection's input, which ends where ssh is
# killed or its machine fails, and then kills the solver with all that it has started.
exec ssh -o BatchMode=yes -o ServerAliveInterval=15 "$host" "sh -c '
    at=\$(mktemp) && head -c $size > \"\$at\" && exec 3<&0 4< \"\$at\" && rm \"\$at\" || exit 16
    setsid \"\$@\" <&4 3<&- 4<&- & solver=\$!
    { read -r _ <&3; kill -s KILL -- -\$solver \$solver; } > /dev/null 2>&1 4<&- & watcher=\$!
    exec 3<&- 4<&-
    wait \$solver; status=\$?
    kill -s KILL -- -\$solver \$watcher 2> /dev/null
    exit \$status' far $words" <&3 3<&-
