#!/bin/sh
# Kills runs of a built program at random moments, and looks that nothing which was told as committed is lost; and such as begin a log anew.
#
# Usage: cases/kills.sh PROGRAM [TIMES]
#
# It ends with status 1 where something is lost, comes twice or stands in part. Where there is no python3 it says so in a line, and ends with status 0.
here=$(cd "$(dirname "$0")" && pwd -P) || exit 125
if ! command -v python3 >/dev/null; then
    echo 'kills: left out, for there is no python3'
    exit 0
fi
status=0
for part in kills kills_restarts; do
    python3 -B "$here/$part.py" "$@" || status=$?
done
exit $status
