#!/bin/sh
# A log that is as long as it may be: the last record that has room is committed and stands, the first that has none is refused with its two numbers, status 9
# and a file that stays as it was; for a transaction at 960 MiB and for a note of a partner's book at 1 GiB.
#
# Usage: cases/full.sh PROGRAM
#
# It writes four logs of some 1 GiB, one after the other, beside the system's temporary files. Where there is no room for one, or no python3, it says so in a
# line, and ends with status 0.
here=$(cd "$(dirname "$0")" && pwd -P) || exit 125
if ! command -v python3 >/dev/null; then
    echo 'full: left out, for there is no python3'
    exit 0
fi
folder=${TMPDIR:-/tmp}
free=$(df -Pk "$folder" 2>/dev/null | awk 'NR == 2 { print $4 }')
if [ "${free:-0}" -lt 3000000 ]; then
    echo "full: left out, for $folder has no room for a log of 1 GiB"
    exit 0
fi
python3 -B "$here/full.py" "$1" --folder "$folder" && echo 'full: 4 of 4 logs end as they are to'
