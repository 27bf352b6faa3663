#!/bin/sh
# Puts faults into runs of a built program on real files, and looks what is left: syncs that fail, runs that are killed, logs that are begun anew
# meanwhile, folders that may not be read, databases that are not there, two that begin at once, names that are too long, and what is said on standard error.
#
# Usage: cases/faults.sh PROGRAM [CHECK..]
#
# It ends with status 1 where something is lost, left lying or not said. Where there is no strace, or none that may look at a process, or no
# python3, it says so in a line, and ends with status 0.
here=$(cd "$(dirname "$0")" && pwd -P) || exit 125
if ! command -v python3 >/dev/null; then
    echo 'faults: left out, for there is no python3'
    exit 0
fi
if ! strace -o /dev/null true 2>/dev/null; then
    echo 'faults: left out, for there is no strace that may look at a process'
    exit 0
fi
exec python3 -B "$here/faults/faults.py" "$@"
