#!/bin/sh
# Runs an engine over ssh on a machine that has the same folders as this one: sh far_ssh.sh HOST SOLVER ARGS. The words
# of any engine line may follow. Nothing is sent along but the words and the name of this folder.
host=$1
shift
exec sh "$(dirname "$0")/send_ssh.sh" "$host" sh -c 'cd "$0" && exec "$@"' "$PWD" "$@" /dev/null
