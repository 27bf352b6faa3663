#!/bin/sh
# Puts the program into place in a new folder, runs it from there, reads its man page, and takes all away again. It prints what does not go as it
# should, and ends with status 1 then. Where there is no program that can render a man page, that part is left out.
#
# Usage: cases/install.sh, behind a build
top=$(cd "$(dirname "$0")/.." && pwd -P) || exit 125
folder=$(mktemp -d) || exit 125
tools=$(mktemp -d) || exit 125
trap 'rm -rf "$folder" "$tools"' EXIT
wrong=0
# Where there is no program of this tree, none is proved and built here.
printf '#!/bin/sh\nexit 1\n' >"$tools/rt"
chmod 755 "$tools/rt"
PATH=$tools:$PATH

say() {
    echo "install: $*"
    wrong=1
}

# Whether these words, of which the last one is completed, come to those of the first argument, in any order. bash has `=` as a word of its own.
completes() {
    wanted=$1
    shift
    words=$(cd "$folder/data" && bash -c 'source "$1"; shift; COMP_WORDS=("$@"); COMP_CWORD=$(($# - 1)); _dbremote; printf "%s\n" "${COMPREPLY[@]}"' \
        - "$folder/share/bash-completion/completions/dbremote" dbremote "$@" 2>&1 | sort)
    [ "$words" = "$(echo "$wanted" | tr ' ' '\n' | sort)" ] || say "the completion of '$*' is: $words"
}

# In a folder with two databases, one more in a folder below, a root without a byte, and what else may lie there.
complete_all() {
    mkdir -p "$folder/data/east/deep" "$folder/data/box/shop" "$folder/data/folder.root"
    cd "$folder/data" || exit 125
    for name in c1 c2 east/deep/e1; do
        echo 0 >$name.root
        : >$name.log0
    done
    : >none.root
    : >box/none.root
    echo 0 >c3
    completes 'sql show' s
    completes 'init sql agent show demo' ''
    completes 'c1 c2 east' sql ''
    completes 'c1 c2' show c
    completes 'c1 c2' show -- c
    completes 'east/deep' sql east/
    completes 'east/deep/e1' sql east/deep/
    completes '' sql none
    completes '' sql c3
    completes '' sql c1 ''
    completes 'box east folder.root' init ''
    completes '' init c1 ''
    completes '' demo ''
    completes 'c1 c2 east' agent ''
    completes 'c1 c2' agent c
    completes '--mail -r -s -p -x -l' agent -
    completes '--mail -r -s -p -x -l' agent c1 ''
    completes '--mail' agent c1 --
    completes '-s -p -x -l' agent c1 --mail box -r ''
    completes 'box' agent c1 --mail b
    completes 'box/shop' agent c1 --mail = box/
    completes 'box east folder.root' agent c1 --mail =
    completes 'c1 c2' agent --mail box c
    completes 'c1 c2' agent --mail = box c
    completes 'c1 c2' agent -r --mail box -s c
    completes 'c1 c2 east' agent -l 10000 ''
    completes 'c1 c2 east' agent -l10000 ''
    completes 'c1 c2 east' agent -l = 10000 ''
    completes '' agent -l ''
    completes '' agent -rl ''
    completes '--mail -p -x' agent c1 -rsl 10000 ''
    completes '--mail -s -p -x' agent -r c1 -l = 10000 ''
    completes 'c1 c2' agent --mail box -- c
    completes '' agent --mail box -- -
    completes '' agent --mail box -- c1 ''
    cd "$top" || exit 125
    rm -rf "$folder/data"
}

page=$folder/share/man/man1/dbremote.1
if "$top/install.sh" "$folder" >/dev/null; then
    made=$(cd "$folder" && bin/dbremote init here cons) || say 'the program does not run where it was placed'
    [ "$made" = 'created cons' ] || say "the program said: $made"
    rm -f "$folder"/here.*
    if command -v mandoc >/dev/null; then
        mandoc -T lint -W warning "$page" || say 'the man page has warnings'
    elif command -v groff >/dev/null; then
        warnings=$(groff -ww -man -Tutf8 "$page" 2>&1 >/dev/null)
        [ -z "$warnings" ] || say "the man page has warnings: $warnings"
    fi
    for command in init sql agent show demo; do
        grep -q "^\.B dbremote $command$" "$page" || say "the man page lacks $command"
    done
    for name in SQL REPLICATION; do
        cmp -s "$top/docs/$name.md" "$folder/share/doc/dbremote/$name.md" || say "$name.md is not beside the man page"
        for picture in $(sed -n 's/.*!\[[^]]*\](\([^)]*\)).*/\1/p' "$top/docs/$name.md"); do
            cmp -s "$top/docs/$picture" "$folder/share/doc/dbremote/$picture" || say "$picture is not beside $name.md"
        done
        grep -q "^\.IR $name\.md " "$page" || say "the man page does not name $name.md"
    done
    if command -v bash >/dev/null; then
        complete_all
    fi
    "$top/install.sh" --remove "$folder" >/dev/null || say 'it could not be taken away'
    left=$(find "$folder" -mindepth 1)
    [ -z "$left" ] || say "left behind: $left"
else
    say 'nothing was placed'
fi
for words in '' '--remove' 'one two' '--other'; do
    # The words are split where they have blanks.
    # shellcheck disable=SC2086
    "$top/install.sh" $words >/dev/null 2>&1
    [ $? -eq 2 ] || say "the words '$words' are not refused"
done
[ $wrong -ne 0 ] || echo 'install: ok'
exit $wrong
