#!/bin/sh
# Compares the program in release/ byte by byte with the one that was just built. It says where they differ, and ends with status 1 where they do and where
# that in release/ was made of other sources than these: behind a gate that passed but for this, release/make.sh takes the program that the gate built.
# Only where another toolchain than this one made it, it says so, and ends with status 0.
#
# Usage: cases/release.sh PROGRAM
top=$(cd "$(dirname "$0")/.." && pwd -P) || exit 125
made=$top/release/made
if [ ! -f "$made" ] || [ "$("$top/release/sum.sh")" != "$(sed -n 1p "$made")" ]; then
    echo 'release: made of other sources than these; where all else passed, run release/make.sh and commit what it makes'
    exit 1
elif [ "$(rt version)" != "$(sed -n 2p "$made")" ]; then
    echo 'release: made by another toolchain, not compared'
elif cmp "$top/release/dbremote" "$1"; then
    echo 'release: the bytes of the program that was built'
else
    exit 1
fi
