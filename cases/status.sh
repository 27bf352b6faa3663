#!/bin/sh
# Has examples/status.py make its page of databases that have run for some days, and looks at it: what it tells, that a name forges nothing in it, and in a browser
# (chromium) that it is as wide as a phone. It prints what does not go as it should, and ends with status 1 then.
#
# Usage: cases/status.sh PROGRAM [PICTURE]
#
# With PICTURE the browser leaves a picture of the page there, a PNG. Where there is no python3, or no browser, it says so in a line and leaves out what needs it.
here=$(cd "$(dirname "$0")" && pwd -P) || exit 125
if ! command -v python3 >/dev/null; then
    echo 'status: left out, for there is no python3'
    exit 0
fi
exec python3 -B "$here/status.py" "$@"
