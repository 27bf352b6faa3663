#!/bin/sh
# Puts dbremote, its man page, the pages for whoever uses it and the completion of its words for bash into place, or takes them away.
#
# Usage: ./install.sh PREFIX             PREFIX/bin/dbremote and PREFIX/share/...; the program is proved and built first where neither release/ has the
#                                        tree's nor one was built
#        ./install.sh --remove PREFIX
#
# It prints each file that it places or takes away. The status is 0, 2 where the words are others, or 1 where something could not be done.
top=$(cd "$(dirname "$0")" && pwd -P) || exit 1
pages='SQL.md REPLICATION.md message.svg windows.svg status.png'

refuse() {
    echo "usage: $0 [--remove] PREFIX" >&2
    exit 2
}

fail() {
    echo "install.sh: $*" >&2
    exit 1
}

# Places a file under the prefix: written beside its place first, so that a program that runs keeps its own.
place() {
    mkdir -p "$(dirname "$prefix/$3")" || fail "no folder for $prefix/$3"
    if cp "$2" "$prefix/$3.new" && chmod "$1" "$prefix/$3.new" && mv -f "$prefix/$3.new" "$prefix/$3"; then
        echo "placed $prefix/$3"
    else
        fail "$prefix/$3 could not be written"
    fi
}

# Takes a file away, and the folders that it leaves empty.
take() {
    [ -e "$prefix/$1" ] || return 0
    rm -f "$prefix/$1" || fail "$prefix/$1 could not be removed"
    echo "removed $prefix/$1"
    folder=$(dirname "$1")
    while [ "$folder" != . ]; do
        rmdir "$prefix/$folder" 2>/dev/null || return 0
        folder=$(dirname "$folder")
    done
}

remove=
if [ "$1" = --remove ]; then
    remove=1
    shift
fi
[ $# -eq 1 ] || refuse
case $1 in
    '' | -*) refuse ;;
esac
prefix=${1%/}

if [ -n "$remove" ]; then
    take bin/dbremote
    take share/man/man1/dbremote.1
    take share/bash-completion/completions/dbremote
    for page in $pages; do
        take "share/doc/dbremote/$page"
    done
    exit 0
fi
program=$("$top/release/program.sh") || fail 'the program could not be built'
place 755 "$program" bin/dbremote
place 644 "$top/docs/dbremote.1" share/man/man1/dbremote.1
place 644 "$top/docs/dbremote.bash" share/bash-completion/completions/dbremote
for page in $pages; do
    place 644 "$top/docs/$page" "share/doc/dbremote/$page"
done
