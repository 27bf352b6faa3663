#!/bin/sh
# Runs the scripts of examples/ that look after databases, in a new folder, and compares what they print and keep with what they are to. It prints what does not
# go as it should, and ends with status 1 then.
#
# Usage: cases/examples.sh PROGRAM
top=$(cd "$(dirname "$0")/.." && pwd -P) || exit 125
if [ $# -ne 1 ]; then
    echo 'usage: cases/examples.sh PROGRAM'
    exit 2
fi
case $1 in
    /*) DBREMOTE=$1 ;;
    *) DBREMOTE=$(pwd -P)/$1 ;;
esac
export DBREMOTE
examples=$top/examples
folder=$(mktemp -d) || exit 125
trap 'rm -rf "$folder"' EXIT
cd "$folder" || exit 125

# Compares the standard input with a text. What was tried, and what was wrong, is counted in files, for it runs behind a pipe.
same() {
    echo "$1" >>.tried
    got=$(cat)
    if [ "$got" != "$2" ]; then
        printf 'examples: %s\n is to be\n%s\n and is\n%s\n' "$1" "$2" "$got" | tee -a .wrong
    fi
}

sql() {
    printf '%s\n' "$2" | "$DBREMOTE" sql "$1" >/dev/null || echo "examples: not done: $2" | tee -a .wrong
}

rows() {
    printf 'SELECT * FROM %s;\n' "$2" | "$DBREMOTE" sql "$1"
}

# What a command prints, with its status where that is not 0, and TIME for times.
say() {
    {
        "$@" 2>&1
        status=$?
        [ $status -eq 0 ] || echo "status $status"
    } | timeless
}

timeless() {
    sed 's/^2[0-9][0-9][0-9]-[01][0-9]-[0-3][0-9]T[0-2][0-9]:[0-5][0-9]:[0-6][0-9]Z /TIME /'
}

office_script() {
    cat <<END
CREATE TABLE item (id INTEGER PRIMARY KEY, qty INTEGER);
CREATE TABLE orders (id INTEGER PRIMARY KEY, office VARCHAR(8), qty INTEGER);
GRANT CONSOLIDATE TO hq;
CREATE PUBLICATION p (TABLE item, TABLE orders);
CREATE SUBSCRIPTION TO p FOR hq;
START SUBSCRIPTION TO p FOR hq;
END
}

# ---- new-office.sh: two offices, with the rows that the head office has for them

"$DBREMOTE" init hq hq >/dev/null
sql hq "CREATE TABLE item (id INTEGER PRIMARY KEY, qty INTEGER);
CREATE TABLE orders (id INTEGER PRIMARY KEY, office VARCHAR(8), qty INTEGER);
CREATE PUBLICATION p (TABLE item, TABLE orders SUBSCRIBE BY office);
INSERT INTO item VALUES (1, 10); INSERT INTO orders VALUES (1, 'north', 5), (2, 'south', 6); COMMIT;"
office_script | say "$examples/new-office.sh" hq north p "'north'" | same 'an office is opened' 'north is granted at hq, and gets its rows with the next runs of both agents'
office_script | say "$examples/new-office.sh" hq south p "'south'" | same 'another office is opened' 'south is granted at hq, and gets its rows with the next runs of both agents'
office_script | say "$examples/new-office.sh" hq North p "'north'" | same 'a name is not given twice' 'new-office: hq knows North already: an office is made anew under a new name
status 1'
say "$examples/new-office.sh" nowhere west p </dev/null | same 'a head office that is not there' 'new-office: nowhere: database missing
status 1'
office_script | say "$examples/new-office.sh" hq south2 q | same 'a publication that is not there' 'new-office: south2 is made, but not granted at hq: statement 2 refused: Missing q
status 1'
rm -f south2.* nowhere.*

# ---- loop.sh: what it keeps and prints

say "$examples/loop.sh" hq box | same 'a quiet run prints nothing' ''
timeless <hq.lines | sed 's/ up to [0-9]*$/ up to N/' | same 'the lines of a run are kept' 'TIME from north took 0 up to N
TIME from south took 0 up to N
TIME from south2 took 0 up to N
TIME to north put 1 up to N
TIME to south put 1 up to N
TIME to south2 put 0 up to N
TIME status 0'
say "$examples/loop.sh" north box | same 'nor does a run that takes' ''
"$examples/loop.sh" south box
rows north orders | same 'the office has its rows' "1|'north'|5
1 rows"
rows north item | same 'and those of all' '1|10
1 rows'
sql hq "INSERT INTO item VALUES (2, 20); COMMIT;"
sql north "INSERT INTO item VALUES (2, 21); COMMIT;"
"$examples/loop.sh" north box
say "$examples/loop.sh" hq box | sed 's/north [0-9]* /north N /' | same 'a clash is printed' 'TIME clash north N 1 Duplicate
status 1'
timeless <hq.clashes | sed 's/north [0-9]* /north N /' | same 'and kept' 'TIME clash north N 1 Duplicate'
say "$examples/loop.sh" hq box | same 'once' ''
timeless <hq.clashes | sed 's/north [0-9]* /north N /' | same 'it stays kept' 'TIME clash north N 1 Duplicate'
printf 'no message' >box/hq/scrap
say "$examples/loop.sh" hq box | same 'what is no message is printed' 'TIME junk scrap
status 1'
rm box/hq/scrap
say "$examples/loop.sh" nowhere box | same 'a fault is printed, with what it means' 'TIME database missing
loop: nowhere: status 3: the database is not there, or damaged: see "Backups" in docs/REPLICATION.md
status 3'
rm -f nowhere.*
echo 'UPDATE item SET qty = qty + 1 WHERE id = 1; COMMIT;' >north.before.sql
say "$examples/loop.sh" north box -s | same 'a script before the agent' ''
tail -n 5 north.lines | timeless | sed 's/ [0-9][0-9][0-9]*$/ N/' | same 'is run before it' 'TIME 1 rows
TIME committed N
TIME status 0
TIME to hq put 1 up to N
TIME status 0'
rm north.before.sql
say "$examples/loop.sh" | same 'words that lack' 'usage: loop.sh [-e SECONDS] NAME FOLDER [WORD ..]
status 2'
if command -v flock >/dev/null; then
    before=$(wc -l <hq.lines)
    (
        flock 9
        say "$examples/loop.sh" hq box
    ) 9>hq.lock | same 'a second run is left out' ''
    wc -l <hq.lines | same 'and keeps nothing' "$before"
fi
: >south.lines
"$examples/loop.sh" -e 1 south box &
looped=$!
for _ in 1 2 3 4 5 6 7 8 9 10; do
    [ "$(grep -c ' status 0$' south.lines)" -lt 2 ] || break
    sleep 1
done
kill "$looped"
wait "$looped" 2>/dev/null
grep -c ' status 0$' south.lines | sed 's/^[2-9]$/more than one/' | same 'with -e it goes on' 'more than one'

# ---- watch.sh: what is not confirmed for long, asks, a log that nears its end

for name in hq north south hq north south hq; do "$examples/loop.sh" $name box; done >/dev/null
NOW=100000 say "$examples/watch.sh" hq north south | same 'nothing is to be told' ''
sql hq "UPDATE item SET qty = 30 WHERE id = 1; COMMIT;"
"$examples/loop.sh" hq box -s
last=$(find box/south -type f)
rm "$last"
NOW=100000 say "$examples/watch.sh" hq | same 'nor of what was just sent' ''
NOW=186399 say "$examples/watch.sh" hq | same 'nor an hour less a second later' ''
for name in north hq; do "$examples/loop.sh" $name box; done
NOW=186400 say "$examples/watch.sh" hq | sed 's/to [0-9]*, confirmed [0-9]*/to N, confirmed M/' | same 'a day later of him who did not confirm' 'hq: south has not confirmed for 24 hours: sent up to N, confirmed M
status 1'
HOURS=48 NOW=186400 say "$examples/watch.sh" hq | same 'or two days later' ''
sql hq "UPDATE item SET qty = 31 WHERE id = 1; COMMIT;"
for name in hq south hq south hq; do "$examples/loop.sh" $name box; done
NOW=186500 say "$examples/watch.sh" hq south | same 'asks are told' 'hq: south asked once for what he misses since the last look
south: what is missing from hq was asked for once since the last look
status 1'
NOW=186500 say "$examples/watch.sh" hq south | same 'once' ''
PERCENT=0 say "$examples/watch.sh" south | sed 's/has [0-9]* of/has N of/' | same 'a log that nears its end' 'south: the log has N of 1073741824 bytes
status 1'
say "$examples/watch.sh" nowhere south | same 'a database that is not there, and one that is' 'nowhere: database missing
status 1'
rm -f nowhere.*
say "$examples/watch.sh" | same 'words that lack' 'usage: watch.sh NAME ..
status 2'

# ---- replace-office.sh: the disk of the north is lost

rm north.root north.log0 north.log1 north.snap0 north.snap1
office_script | say "$examples/replace-office.sh" hq north north2 p "'north'" | same 'an office is replaced' 'north2 is granted at hq, and gets its rows with the next runs of both agents
north gets nothing more'
for name in hq north2 hq; do "$examples/loop.sh" $name box; done
rows north2 orders | same 'the new one has the rows' "1|'north'|5
1 rows"
sql hq "INSERT INTO orders VALUES (3, 'north', 7); COMMIT;"
say "$DBREMOTE" agent hq --mail box | sed 's/ up to [0-9]*$/ up to N/' | same 'the old one gets nothing more' 'from north took 0 up to N
from south took 0 up to N
from south2 took 0 up to N
from north2 took 0 up to N
to north put 0 up to N
to south put 0 up to N
to south2 put 0 up to N
to north2 put 1 up to N'
office_script | say "$examples/replace-office.sh" hq west west2 p | same 'one that is not there' 'replace-office: hq knows no west
status 1'
office_script | say "$examples/replace-office.sh" hq north south p "'north'" | same 'by a name that is known' 'new-office: hq knows south already: an office is made anew under a new name
status 1'

[ ! -e .wrong ] || exit 1
echo "examples: $(wc -l <.tried) met"
