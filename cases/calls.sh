#!/bin/sh
# Counts the system calls of a built program: those of commits, those of a log begun anew and, by the built program that tests the devices, those of putting messages.
#
# Usage: cases/calls.sh PROGRAM [LAYERTESTS]
#
# It ends with status 1 where a call is missing, out of its place or one too many. Where there is no strace, or none that may look at a
# process, or no python3, it says so in a line, and ends with status 0.
here=$(cd "$(dirname "$0")" && pwd -P) || exit 125
if ! command -v python3 >/dev/null; then
    echo 'calls: left out, for there is no python3'
    exit 0
fi
if ! strace -o /dev/null true 2>/dev/null; then
    echo 'calls: left out, for there is no strace that may look at a process'
    exit 0
fi
exec python3 -B "$here/calls.py" "$@"
