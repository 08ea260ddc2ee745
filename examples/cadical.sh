#!/bin/sh
# An engine line of a task file: drup sh cadical.sh. The job file comes last; the proof, or the values, go to standard output.
exec cadical -q --no-binary "$1" -
