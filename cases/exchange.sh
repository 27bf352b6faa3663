#!/bin/sh
# Lets three databases exchange messages over folders in which files are lost, late, repeated and cut, by agents of which some are killed, and looks that all end
# alike.
#
# Usage: cases/exchange.sh PROGRAM [ROUNDS]
#
# It ends with status 1 where a row is missing, comes twice or is where it does not belong. Where there is no python3 it says so in a line, and ends with status 0.
here=$(cd "$(dirname "$0")" && pwd -P) || exit 125
if ! command -v python3 >/dev/null; then
    echo 'exchange: left out, for there is no python3'
    exit 0
fi
exec python3 -B "$here/exchange.py" "$@"
