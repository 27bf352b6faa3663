#!/bin/sh
# One run of a database's agent, for a timer. It keeps each line that the run says, with the time before it.
#
# Usage: examples/loop.sh [-e SECONDS] NAME FOLDER [WORD ..]
#
# It runs `dbremote agent NAME --mail FOLDER WORD ..`; DBREMOTE in the environment is the program, by default the launcher beside this folder. With -e it goes on
# until it is ended, one run each SECONDS. Where a run through this script is under way, it leaves this one out, and says nothing.
#
#   NAME.lines        gets each line, and behind those of a run `status N`; the time is UTC
#   NAME.clashes      gets each line `clash`, which is told once: take a line away when it is mended
#   NAME.before.sql   is run on the database before the agent, where it is there: a heartbeat, say
#   NAME.lock         is locked meanwhile, where there is `flock`
#
# Lines at which somebody has to do something are printed too, so that cron sends a mail of them; a gap is none, since it is asked for. The status is the run's.
top=$(cd "$(dirname "$0")/.." && pwd -P) || exit 125
program=${DBREMOTE:-$top/dbremote}
each=
if [ "$1" = -e ]; then
    each=$2
    shift 2
fi
case $each in
    *[!0-9]*) set -- ;;
esac
if [ $# -lt 2 ]; then
    echo 'usage: loop.sh [-e SECONDS] NAME FOLDER [WORD ..]' >&2
    exit 2
fi
name=$1
folder=$2
shift 2

# Runs dbremote, and says its status in a line of its own.
run() {
    "$program" "$@"
    printf '\nstatus %s\n' $?
}

# Puts the time before each line that is not empty.
timed() {
    while IFS= read -r line || [ -n "$line" ]; do
        [ -z "$line" ] || printf '%s %s\n' "$(date -u +%Y-%m-%dT%H:%M:%SZ)" "$line"
    done
}

# Says on standard error what a status means that ends a run early.
tell() {
    case $1 in
        0 | 1) return ;;
        2) means='the words are refused' ;;
        3) means='the database is not there, or damaged: see "Backups" in docs/REPLICATION.md' ;;
        4) means='a statement is refused' ;;
        5) means='another run has the database, or its disk failed: the next run goes on' ;;
        6) means='the mail folder may not be read or written: the next run goes on' ;;
        7) means='the lines could not be kept' ;;
        8) means='out of memory' ;;
        9) means='too long or full: see "What to do at each line" in docs/REPLICATION.md' ;;
        125 | 126 | 127) means='the program could not be run' ;;
        *) means='the run was ended from outside: the next run goes on' ;;
    esac
    echo "loop: $name: status $1: $means" >&2
}

# One run of the script before it and of the agent.
round() {
    lines=$name.lines
    : >>"$lines" || return 7
    first=$(($(wc -l <"$lines") + 1))
    {
        [ ! -f "$name.before.sql" ] || run sql "$name" <"$name.before.sql"
        run agent "$name" --mail "$folder" "$@" </dev/null
    } | timed >>"$lines"
    if tail -n "+$first" "$lines" | grep -q '^[^ ]* clash '; then
        tail -n "+$first" "$lines" | grep '^[^ ]* clash ' >>"$name.clashes"
    fi
    quiet='(from|to|gap|conflict) .*|status [0-9]+|[0-9]+ rows|committed [0-9]+|nothing to commit'
    tail -n "+$first" "$lines" | grep -Ev "^[^ ]* ($quiet)\$"
    status=$(tail -n "+$first" "$lines" | sed -n 's/^[^ ]* status \([0-9][0-9]*\)$/\1/p' | tail -n 1)
    tell "${status:=7}"
    return "$status"
}

# A round, unless one is under way.
alone() {
    if command -v flock >/dev/null; then
        (
            flock -n 9 || exit 0
            round "$@"
        ) 9>"$name.lock"
    else
        round "$@"
    fi
}

alone "$@"
status=$?
while [ -n "$each" ]; do
    sleep "$each"
    alone "$@"
    status=$?
done
exit $status
