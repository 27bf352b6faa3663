#!/bin/sh
# Refuses each growth of memory of a built program once, in each run of two exchanges: a row that moves from one partner to another, and a file that is lost and
# asked for again. Such a run is to print the lines of what it did, then `out of memory`, or nothing where that line lacks memory too, and to end with 8; one
# more run with all its memory is to end as it ends where nothing is refused. Or it does all that it is to do, where but a line could not be held before it goes
# out.
#
# Usage: cases/growths.sh PROGRAM [STEP]
#
# It takes minutes, so no gate runs it. With a STEP it refuses each so manieth growth alone. It ends with status 1 where a run does something else. Where there
# is no python3 or no cc, or the program has the C library in it, it says so in a line, and ends with status 0.
here=$(cd "$(dirname "$0")" && pwd -P) || exit 125
for tool in python3 cc; do
    if ! command -v "$tool" >/dev/null; then
        echo "growths: left out, for there is no $tool"
        exit 0
    fi
done
exec python3 -B "$here/growths/growths.py" "$@"
