#!/bin/sh
# Prints the checksum of the sources that the program is made of: crates.txt, and the code, definitions and proofs of each crate, by name and content.
cd "$(dirname "$0")/.." || exit 1
find crates.txt crates -name out -prune -o -type f \( -name '*.rt' -o -name '*.antt' -o -name crates.txt \) -print | LC_ALL=C sort | tr '\n' '\0' |
    xargs -0 sha256sum | sha256sum | cut -d ' ' -f 1
