#!/bin/sh
# Draws databases that replicate, and looks that each run of a built program does what an independent reading of the rules in docs/ says: its lines, its status,
# each byte of the files in force, each name and byte in the mail folders; and what it says of files that are damaged.
#
# Usage: cases/worlds.sh PROGRAM [WORLDS]
#
# It ends with status 1 where something differs, and tells the step, what was to come and what came. Where there is no python3 it says so in a line, and ends
# with status 0.
here=$(cd "$(dirname "$0")" && pwd -P) || exit 125
if ! command -v python3 >/dev/null; then
    echo 'worlds: left out, for there is no python3'
    exit 0
fi
exec python3 -B "$here/worlds/worlds.py" "$@"
