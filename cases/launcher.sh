#!/bin/sh
# Looks, in a copy of the tree, that the launcher runs the program in release/ as long as it is the tree's, notices each change of a source, says what is
# amiss, and hands on words, statuses and signals. Instead of the toolchain there is a command `rt` that only notes that it was called. It prints what does
# not go as it should, and ends with status 1 then.
#
# Usage: cases/launcher.sh PROGRAM
top=$(cd "$(dirname "$0")/.." && pwd -P) || exit 125
program=$(cd "$(dirname "$1")" && pwd -P)/${1##*/} || exit 125
folder=$(mktemp -d) || exit 125
trap 'rm -rf "$folder"' EXIT
wrong=0

say() {
    echo "launcher: $*"
    wrong=1
}

tree=$folder/tree
mkdir "$tree" "$folder/bin" "$folder/here"
(cd "$top" && tar cf - --exclude=out --exclude=.git .) | (cd "$tree" && tar xf -)
cp "$program" "$tree/release/dbremote" && chmod 755 "$tree/release/dbremote" || exit 125
"$tree/release/sum.sh" >"$tree/release/made"
printf '#!/bin/sh\necho called >>"%s/called"\nexit 1\n' "$folder" >"$folder/bin/rt"
chmod 755 "$folder/bin/rt"
# The folders of PATH without one that has the toolchain, so that it is never called.
found=
for place in $(echo "$PATH" | tr : ' '); do
    [ -x "$place/rt" ] || found=$found:$place
done
PATH=$folder/bin$found
cd "$folder/here" || exit 125

# Whether the launcher says this with these words, with this status, and calls for the toolchain or not.
expect() {
    about=$1
    status=$2
    called=$3
    line=$4
    shift 4
    rm -f "$folder/called"
    said=$("$tree/dbremote" "$@" 2>"$folder/errors" </dev/null)
    got=$?
    [ $got -eq "$status" ] || say "$about: the status is $got"
    [ "$said" = "$line" ] || say "$about: it said: $said"
    if [ -e "$folder/called" ]; then now=called; else now=alone; fi
    [ $now = "$called" ] || say "$about: the toolchain was $now"
}

# Whether these words are on standard error.
told() {
    grep -q -e "$1" "$folder/errors" || say "$about: standard error lacks: $1"
}

# A change of the sources, which is noticed, and undone, which is noticed too.
change() {
    expect "before: $1" 3 alone 'database missing' show zz
    (cd "$tree/crates" && eval "$2")
    expect "$1" 125 called '' show zz
    told 'made of other sources'
    told 'proving and building'
    (cd "$tree/crates" && eval "$3")
    expect "undone: $1" 3 alone 'database missing' show zz
}

expect 'a database is made' 0 alone 'created cons' init c1 cons
[ ! -s "$folder/errors" ] || say 'standard error has something'
expect 'it is kept that the sources are those' 3 alone 'database exists' init c1 cons
cp -Rp "$tree/crates" "$folder/crates"
change 'a line more' 'echo "// more" >>dbremote/src/main.rt' 'cp -p ../../crates/dbremote/src/main.rt dbremote/src/main.rt'
change 'another line, with an older time' 'sed -i "1s/.*/\/\/ changed/" dbremote/src/main.rt; touch -d 2001-01-01 dbremote/src/main.rt' \
    'cp -p ../../crates/dbremote/src/main.rt dbremote/src/main.rt'
change 'another file in place of one, of its length and time' \
    'tr a b <dbremote/src/main.rt >x; touch -r dbremote/src/main.rt x; mv x dbremote/src/main.rt' \
    'cp -p ../../crates/dbremote/src/main.rt dbremote/src/main.rt'
change 'a file more' 'touch -d 2001-01-01 sr_base/specs/More.antt' 'rm sr_base/specs/More.antt'
change 'a file less' 'rm sr_base/specs/Lib.antt' 'cp -p ../../crates/sr_base/specs/Lib.antt sr_base/specs/Lib.antt'
change 'a folder less' 'mv sr_base/proofs ..' 'mv ../proofs sr_base'
change 'the list of crates' 'echo "# more" >>../crates.txt' "sed -i '\$d' ../crates.txt"

# A program that was built here, of sources that are not those of the one in release/.
echo '// more' >>"$tree/crates/dbremote/src/main.rt"
sleep 0.1
cp "$program" "$tree/crates/dbremote/out/dbremote"
expect 'the program that was built here' 3 alone 'database missing' show zz
touch "$tree/crates/sr_base/src/lib.rt"
expect 'it is noted of which sources it was built' 3 alone 'database missing' show zz
change 'built here: a file less' 'rm sr_base/specs/Lib.antt' 'cp -p ../../crates/sr_base/specs/Lib.antt sr_base/specs/Lib.antt'
rm "$tree/crates/dbremote/out/built" "$tree/crates/sr_base/specs/Lib.antt"
expect 'built here, not noted: a file less' 125 called '' show zz
cp -p "$folder/crates/sr_base/specs/Lib.antt" "$tree/crates/sr_base/specs/Lib.antt"
rm "$tree/crates/dbremote/out/dbremote"
mv "$folder/bin/rt" "$folder/rt"
expect 'without the toolchain' 125 alone '' show zz
told 'the command rt'
mv "$folder/rt" "$folder/bin/rt"
cp -p "$folder/crates/dbremote/src/main.rt" "$tree/crates/dbremote/src/main.rt"

chmod 644 "$tree/release/dbremote"
expect 'a program that may not be executed' 125 alone '' show zz
told 'release/dbremote may not be executed'
printf '\177ELF of another machine' >"$tree/release/dbremote"
chmod 755 "$tree/release/dbremote"
expect 'a program of another machine' 125 called '' show zz
told 'does not run on this machine'
cp "$program" "$tree/release/dbremote"

# The usage comes exactly where words are refused, which each line of words.txt is asked for, and names every command.
expect 'words that are refused' 2 alone 'words refused' agent c1
for command in init sql agent show demo; do
    told "dbremote $command "
done
expect 'no word' 2 alone 'words refused'
told '^usage: dbremote init'
expect 'a database that is not there' 3 alone 'database missing' sql zz
! grep -q usage "$folder/errors" || say 'the usage is printed for words that are right'
LC_ALL=C awk '{
    while (match($0, /%[0-9a-f][0-9a-f]/)) {
        byte = 16 * index(digits, substr($0, RSTART + 1, 1)) + index(digits, substr($0, RSTART + 2, 1)) - 17
        $0 = substr($0, 1, RSTART - 1) sprintf(byte < 128 ? "\\%c" : "%c", byte) substr($0, RSTART + 3)
    }
    while (match($0, /{[0-9]+\*.[^}]*}/)) {
        part = substr($0, RSTART + 1, RLENGTH - 2); star = index(part, "*"); many = ""
        for (i = 0; i < substr(part, 1, star - 1) + 0; i++) many = many substr(part, star + 1)
        $0 = substr($0, 1, RSTART - 1) many substr($0, RSTART + RLENGTH)
    }
    print
}' digits=0123456789abcdef "$top/cases/words.txt" >"$folder/words"
. "$tree/release/words.sh"
lines=0
right=0
while IFS= read -r line; do
    case $line in
        '' | '#'*) continue ;;
        '> 2 '*) refused=1 ;;
        '> '*) refused= ;;
        *)
            eval "set -- $line"
            lines=$((lines + 1))
            if are_right "$@"; then
                right=$((right + 1))
                [ -z "$refused" ] || say "no usage for the words: $line"
            else
                [ -n "$refused" ] || say "the usage for the words: $line"
            fi
            ;;
    esac
done <"$folder/words"
if [ $right -lt 20 ] || [ $((lines - right)) -lt 100 ]; then
    say "words.txt has $right lines that are right, and $((lines - right)) others"
fi

# A run is the launcher's own process, so that a signal reaches it.
mkfifo "$folder/pipe"
"$tree/dbremote" sql c1 <"$folder/pipe" >"$folder/lines" &
run=$!
exec 3>"$folder/pipe"
tries=0
while [ $tries -lt 100 ] && [ "$(readlink "/proc/$run/exe")" != "$tree/release/dbremote" ]; do
    sleep 0.1
    tries=$((tries + 1))
done
[ $tries -lt 100 ] || say 'the launcher did not become the program'
kill -TERM $run
exec 3>&-
wait $run 2>/dev/null
status=$?
[ $status -eq 143 ] || say "a run that was ended has the status $status"
[ $wrong -ne 0 ] || echo 'launcher: ok'
exit $wrong
