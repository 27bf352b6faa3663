#!/bin/sh
# Prints the path of the program of this tree: the one in this folder where it was made of the tree's sources, by their checksum; else the one that was
# built here of them; else one that is proved and built now, which needs the command `rt`. The status is 125 where that fails, and where the program in
# this folder is the tree's and may not be executed. What is amiss is said on standard error.
top=$(cd "$(dirname "$0")/.." && pwd -P) || exit 125
out=$top/crates/dbremote/out
built=$out/dbremote
released=$top/release/dbremote

# Each source with its size, its times, its inode and its name; nothing where `find` cannot tell. The time of the last change is among them, which nobody
# can set: a file that gets an older time, or another one's place, is told by it.
list_sources() {
    (cd "$top" && find crates.txt crates -name out -prune -o -type f \( -name '*.rt' -o -name '*.antt' -o -name crates.txt \) \
        -printf '%s %T@ %C@ %i %p\n') 2>/dev/null
}

# The checksum of the sources. It is kept in out/, above their list as it was before, so that they are read again only where the list is another.
sum_sources() {
    kept=$out/sources
    if [ -s "$kept" ] && { sed -n 1p "$kept" && list_sources; } | cmp -s - "$kept"; then
        sed -n 1p "$kept"
        return
    fi
    mkdir -p "$out" 2>/dev/null
    before=$(list_sources)
    sum=$("$top/release/sum.sh")
    if [ -n "$before" ] && printf '%s\n' "$sum" "$before" 2>/dev/null >"$kept.$$"; then
        mv -f "$kept.$$" "$kept"
    fi
    echo "$sum"
}

# Whether the program that was built here is of the sources with this checksum. The launcher notes what it builds. Of one that something else built, it
# is asked once whether a source, or a folder of sources, has changed since. The folder of a crate itself changes whenever its out/ is made.
is_built_of() {
    [ -x "$built" ] || return 1
    of=$out/built
    bytes=$(cksum <"$built")
    if [ -f "$of" ] && [ "$(sed -n 2p "$of")" = "$bytes" ]; then
        [ "$(sed -n 1p "$of")" = "$1" ]
        return
    fi
    newer=$(find "$top/crates.txt" "$top/crates" -name out -prune -o -cnewer "$built" \
        \( -type f \( -name '*.rt' -o -name '*.antt' -o -name crates.txt \) -o -type d ! -path "$top/crates/*" -o -type d -path "$top/crates/*/*" \) \
        -print 2>&1 | head -n 1)
    [ -z "$newer" ] || return 1
    note_built "$1"
}

note_built() {
    printf '%s\n' "$1" "$(cksum <"$built")" 2>/dev/null >"$out/built" || :
}

say() {
    echo "dbremote: $*" >&2
}

build() {
    if [ -n "$is_released" ]; then
        say "$released does not run on this machine: it is for Linux on x86-64, with glibc 2.34 or later"
    else
        say 'the program in release/ was made of other sources than these'
    fi
    if ! command -v rt >/dev/null; then
        say 'the command rt, which proves and builds it, is not here'
        return 1
    fi
    say 'proving and building the program; the first time takes hours, and rt ci at the top of the checkout is faster'
    log=$out/build.log
    mkdir -p "$out" || return 1
    # `rt run` ends by running the program without a word, which it refuses and leaves everything alone
    (cd "$top/crates/dbremote" && rt run) </dev/null >"$log" 2>&1
    if [ ! -x "$built" ] || [ ! -f "$built.stamp" ]; then
        cat "$log" >&2
        say 'the program could not be built'
        return 1
    fi
    note_built "$1"
}

# Whether the released program runs on this machine: without a word it has status 2, and leaves everything alone.
can_run() {
    [ -x "$released" ] || return 1
    "$released" </dev/null >/dev/null 2>&1
    [ $? -eq 2 ]
}

sum=$(sum_sources)
is_released=
if [ -f "$released" ] && [ "$sum" = "$(sed -n 1p "$top/release/made")" ]; then
    is_released=1
fi
if [ -n "$is_released" ] && can_run; then
    echo "$released"
elif is_built_of "$sum"; then
    echo "$built"
elif [ -n "$is_released" ] && [ ! -x "$released" ]; then
    say "$released may not be executed: give it that right (chmod +x), or move the checkout to where programs may be run"
    exit 125
elif build "$sum"; then
    echo "$built"
else
    exit 125
fi
