#!/bin/sh
# Looks at the repository itself, in seconds and without a build: that each edit which the prover is to refuse can be applied and reads, that the table of
# layers stands as crates.txt has it, and that each crate, file and definition which the documents name is there. It prints what is not so, a line each.
#
# Usage: cases/house.sh [--self-test]
#
# With --self-test it looks at copies of the repository that are wrong in one place each, and says where it does not see it. It ends with status 1 where a
# thing is not so. Where there is no python3 it says so in a line, and ends with status 0; where there is no rt, whether edits read is left out.
here=$(cd "$(dirname "$0")" && pwd -P) || exit 125
if ! command -v python3 >/dev/null; then
    echo 'house: left out, for there is no python3'
    exit 0
fi
exec python3 -B "$here/house/house.py" "$@"
