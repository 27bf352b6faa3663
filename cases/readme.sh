#!/bin/sh
# Does what README.md says at its prompts, each command from its own text and in order, in a fresh clone of this repository, without the toolchain, and
# compares what comes with what stands there. The first block, to the row of its SELECT, may take five seconds in a clone that was not used before. It prints what differs, and ends with
# status 1 then. Where this is no clone, or git is not there, it says so in a line, and passes.
#
# Usage: cases/readme.sh [PROGRAM]
#
# With PROGRAM the clone has it in release/, as made of its sources; without, what is committed there is used.
top=$(cd "$(dirname "$0")/.." && pwd -P) || exit 125
if ! git -C "$top" rev-parse HEAD >/dev/null 2>&1; then
    echo 'readme: left out, for there is no clone to take a clone of'
    exit 0
fi
folder=$(mktemp -d) || exit 125
trap 'rm -rf "$folder"' EXIT
wrong=0

say() {
    echo "readme: $*"
    wrong=1
}

# The time in milliseconds.
now() {
    echo $(($(date +%s%N) / 1000000))
}

program=
if [ -n "$1" ]; then
    program=$(cd "$(dirname "$1")" && pwd -P)/$(basename "$1")
fi
mkdir "$folder/bin" "$folder/home"
# The folders of PATH without one that has the toolchain, behind one with a command that notes that the toolchain was called.
found=
for place in $(echo "$PATH" | tr : ' '); do
    [ -x "$place/rt" ] || found=$found:$place
done
printf '#!/bin/sh\necho called >>"%s/called"\nexit 1\n' "$folder" >"$folder/bin/rt"
chmod 755 "$folder/bin/rt"
HOME=$folder/home
PATH=$folder/bin:$HOME/.local/bin$found

# Takes a fresh clone, and goes into it.
clone() {
    git clone -q "$top" "$folder/$1" || exit 125
    cd "$folder/$1" || exit 125
    if [ -n "$program" ]; then
        cp "$program" release/dbremote && chmod 755 release/dbremote
        release/sum.sh >release/made
    fi
}

clone clone
start=$(now)

# What stands at the prompts, with what is to come behind each: the lines of the blocks in which a line begins with `$`.
awk '/^    / { if (!inside) { inside = 1; prompt = 0; number++ }
               if (/^    \$ /) prompt = 1
               if (prompt) print number, substr($0, 5); next }
     { inside = 0 }' README.md >"$folder/text"
first=$(sed -n '1s/ .*//p' "$folder/text")
sed 's/^[0-9]* //' "$folder/text" >"$folder/wanted"

# Does each command in this shell, since one of them asks for the status of the one before it.
status=0
timed=
: >"$folder/got"
while IFS= read -r line <&3; do
    case $line in
        "$first "*) ;;
        *)
            if [ -z "$timed" ]; then
                timed=$(now)
            fi
            ;;
    esac
    line=${line#* }
    case $line in
        '$ '*)
            printf '%s\n' "$line" >>"$folder/got"
            (exit $status)
            eval "${line#??}" >>"$folder/got" 2>&1 </dev/null
            status=$?
            ;;
    esac
done 3<"$folder/text"
sed "s,$HOME,/home/ann," "$folder/got" | diff "$folder/wanted" - || say 'the lines marked < stand in README.md, those marked > came'
commands=$(grep -c '^\$ ' "$folder/wanted")
[ "$commands" -ge 20 ] || say "README.md has $commands commands at prompts"
grep -q "^$first .*SELECT" "$folder/text" || say 'the first block has no SELECT'
grep -q "^$first .*|" "$folder/text" || say 'the first block shows no row'
[ ! -e "$folder/called" ] || say 'the toolchain was called'
took=$((timed - start))
# A machine that is busy with other things has two more tries, each in a clone of its own.
for again in second third; do
    if [ $took -ge 5000 ]; then
        clone $again
        sed -n "s/^$first \\\$ //p" "$folder/text" >"$folder/first"
        start=$(now)
        while IFS= read -r line <&3; do
            eval "$line" >/dev/null 2>&1 </dev/null
        done 3<"$folder/first"
        took=$(($(now) - start))
    fi
done
[ $took -lt 5000 ] || say "the first block took $took milliseconds"
[ $wrong -ne 0 ] || echo "readme: $commands commands as they stand there; the first row behind $took milliseconds"
exit $wrong
