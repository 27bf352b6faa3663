#!/bin/sh
# Runs the cases of this folder with a built program, and prints each that it does not meet.
#
# Usage: cases/run.sh PROGRAM [CASE ..]
#
# With cases (program/show.case, say) it runs these alone. It ends with status 1 where a case is not met. Where there is no python3 it says so in a line, and ends with status 0.
here=$(cd "$(dirname "$0")" && pwd -P) || exit 125
if ! command -v python3 >/dev/null; then
    echo 'cases: left out, for there is no python3'
    exit 0
fi
exec python3 -B "$here/run.py" "$@"
