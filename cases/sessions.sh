#!/bin/sh
# Draws sessions of SQL, runs them with a built program, and compares their lines, exit statuses and logs with what an independent reading of the rules says.
#
# Usage: cases/sessions.sh PROGRAM [DATABASES]
#
# It ends with status 1 where something differs. Where there is no python3 it says so in a line, and ends with status 0.
here=$(cd "$(dirname "$0")" && pwd -P) || exit 125
if ! command -v python3 >/dev/null; then
    echo 'sessions: left out, for there is no python3'
    exit 0
fi
exec python3 -B "$here/sessions/sessions.py" "$@"
