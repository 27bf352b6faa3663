#!/bin/sh
# Counts how much a run of a built program's agent reads of its log, where a head office has many partners: not all of it for each of them.
#
# Usage: cases/reads.sh PROGRAM
#
# It ends with status 1 where a run reads too much. Where there is no strace, or none that may look at a process, or no python3, it says so in a line, and ends
# with status 0.
here=$(cd "$(dirname "$0")" && pwd -P) || exit 125
if ! command -v python3 >/dev/null; then
    echo 'reads: left out, for there is no python3'
    exit 0
fi
if ! strace -o /dev/null true 2>/dev/null; then
    echo 'reads: left out, for there is no strace that may look at a process'
    exit 0
fi
exec python3 -B "$here/reads.py" "$@"
