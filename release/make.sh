#!/bin/sh
# Takes the program that the gate built into this folder, with the checksum of its sources and the toolchain that made it. Call it behind a gate in which all
# passed but cases/release.sh, which tells that the program here is of other sources, and commit what it makes with the change.
cd "$(dirname "$0")" || exit 1
cp ../crates/dbremote/out/dbremote dbremote.new && chmod 755 dbremote.new && mv dbremote.new dbremote || exit 1
{ ./sum.sh && rt version; } >made
