#!/bin/sh
# Follows docs/REPLICATION.md through a year of a head office and five offices: they are opened, a file is lost, values meet, each kind of clash comes and is mended,
# an office is replaced and one is closed. At the end each row that was ever committed is where the page says. The page's own commands are taken from its text. It
# prints what does not go so, and ends with status 1 then.
#
# Usage: cases/office.sh PROGRAM
top=$(cd "$(dirname "$0")/.." && pwd -P) || exit 125
if [ $# -ne 1 ]; then
    echo 'usage: cases/office.sh PROGRAM'
    exit 2
fi
case $1 in
    /*) DBREMOTE=$1 ;;
    *) DBREMOTE=$(pwd -P)/$1 ;;
esac
export DBREMOTE
if ! command -v flock >/dev/null; then
    echo 'office: left out, for there is no flock'
    exit 0
fi
page=$top/docs/REPLICATION.md
folder=$(mktemp -d) || exit 125
trap 'rm -rf "$folder"' EXIT
cd "$folder" || exit 125
mkdir words backup
ln -s "$DBREMOTE" words/dbremote
PATH=$folder/words:$PATH

wrong() {
    echo "office: $*" | tee -a .wrong >&2
}

# The lines of the page that stand in a block of commands and have this text.
page_lines() {
    lines=$(grep -F "$1" "$page" | sed -n 's/^    //p')
    [ -n "$lines" ] || wrong "the page lacks: $1"
    printf '%s\n' "$lines"
}

# The block of commands of the page in which this text stands.
page_block() {
    block=$(awk -v text="$1" '/^    / { block = block substr($0, 5) "\n"; if (index($0, text)) found = 1; next } { if (found) exit; block = "" } END { if (found) printf "%s", block }' "$page")
    [ -n "$block" ] || wrong "the page lacks: $1"
    printf '%s\n' "$block"
}

sql() {
    said=$(printf '%s\n' "$2" | dbremote sql "$1") || wrong "$1: $2: $said"
}

# One run of each of these, by the timer's script.
run() {
    for name; do
        "$top/examples/loop.sh" "$name" box >>printed 2>&1
    done
}

# A clash that is told is taken off its list when it is mended.
clashed() {
    tail -n 1 "$1.clashes" 2>/dev/null | grep -q " $2\$" || wrong "$1 tells no clash $2"
    rm -f "$1.clashes"
}

# Whether a line stands among the last ones of a database.
told() {
    tail -n 12 "$1.lines" | grep -q "$2" || wrong "$1 does not tell: $2"
}

# The rows of a table, by a script of SELECT.
has() {
    got=$(printf '%s\n' "$2" | dbremote sql "$1")
    want=$(cat)
    [ "$got" = "$want" ] || wrong "$1: $2: is to be
$want
and is
$got"
}

# SYNCHRONIZE as the page has it: nobody commits at the office, all that it sent is confirmed, then it goes.
synchronize() {
    run "$1" hq
    dbremote agent "$1" --mail box -r >/dev/null
    sent=$(dbremote show "$1" | awk '$1 == "user" && $2 == "hq" { print $6 }')
    confirmed=$(dbremote show "$1" | awk '$1 == "user" && $2 == "hq" { print $7 }')
    [ "$sent" = "$confirmed" ] || wrong "$1 has sent up to $sent, and $confirmed is confirmed"
    sql hq "SYNCHRONIZE SUBSCRIPTION TO shop ('${2:-$1}') FOR $1;"
    run hq "$1"
}

# ---- the head office

dbremote init hq hq >/dev/null
sql hq "CREATE TABLE item (id INTEGER PRIMARY KEY, name VARCHAR(20), price INTEGER);
CREATE TABLE orders (id INTEGER PRIMARY KEY, office VARCHAR(8), qty INTEGER, note VARCHAR(8) NOT NULL);
$(page_lines 'CREATE TABLE beat')
CREATE PUBLICATION shop (TABLE item, TABLE orders SUBSCRIBE BY office, TABLE beat SUBSCRIBE BY office);
CREATE TRIGGER add_up RESOLVE UPDATE OF qty ON orders REFERENCING OLD AS o NEW AS n REMOTE AS r FOR EACH ROW BEGIN SET n.qty = o.qty + n.qty - r.qty; END;
INSERT INTO item VALUES (1, 'lamp', 40), (2, 'chair', 65);
INSERT INTO orders VALUES (1, 'north', 10, 'a'), (2, 'south', 20, 'b'), (3, 'east', 30, 'c'), (4, 'west', 40, 'd'), (5, 'shop', 50, 'e');
INSERT INTO beat VALUES ('north', 0, 0), ('south', 0, 0), ('east', 0, 0), ('west', 0, 0), ('shop', 0, 0);
COMMIT;"
page_lines 'UPDATE beat SET down' >hq.before.sql

# ---- five offices. The east lacks a table, the south has a column more, the west takes notes that the head office does not

office_script() {
    [ "$1" = east ] || echo 'CREATE TABLE item (id INTEGER PRIMARY KEY, name VARCHAR(20), price INTEGER);'
    case $1 in
        south) echo 'CREATE TABLE orders (id INTEGER PRIMARY KEY, office VARCHAR(8), qty INTEGER, note VARCHAR(8) NOT NULL, weight INTEGER);' ;;
        west) echo 'CREATE TABLE orders (id INTEGER PRIMARY KEY, office VARCHAR(8), qty INTEGER, note VARCHAR(40));' ;;
        *) echo 'CREATE TABLE orders (id INTEGER PRIMARY KEY, office VARCHAR(8), qty INTEGER, note VARCHAR(8) NOT NULL);' ;;
    esac
    page_lines 'CREATE TABLE beat'
    echo 'GRANT CONSOLIDATE TO hq; CREATE PUBLICATION up (TABLE orders, TABLE beat); CREATE SUBSCRIPTION TO up FOR hq; START SUBSCRIPTION TO up FOR hq;'
}

for office in north south east west shop; do
    office_script $office | "$top/examples/new-office.sh" hq $office shop "'$office'" >>printed || wrong "$office is not opened"
    page_lines 'UPDATE beat SET up' >$office.before.sql
done
run hq
for office in north south east west shop; do
    run $office
done
clashed east NoTable
sql hq "PASSTHROUGH ONLY FOR east; CREATE TABLE item (id INTEGER PRIMARY KEY, name VARCHAR(20), price INTEGER); PASSTHROUGH STOP;"
synchronize east
has east 'SELECT * FROM item; SELECT * FROM orders;' <<'END'
1|'lamp'|40
2|'chair'|65
2 rows
3|'east'|30|'c'
1 rows
END

# ---- orders come in

sql north "INSERT INTO orders VALUES (1001, 'north', 1, 'n1'); COMMIT;"
sql south "INSERT INTO orders (id, office, qty, note) VALUES (2001, 'south', 2, 's1'); COMMIT;"
sql east "INSERT INTO orders VALUES (3001, 'east', 3, 'e1'); COMMIT;"
sql west "INSERT INTO orders VALUES (4001, 'west', 4, 'w1'); COMMIT;"
sql shop "INSERT INTO orders VALUES (5001, 'shop', 5, 'p1'); COMMIT;"
run north south east west
# the page's own line for cron, without its times
page_lines 'flock -n shop.lock dbremote agent' | sed 's/^.*&& flock/flock/' >cron
sh ./cron >/dev/null || wrong "the page's line for cron ends with status $?"
run hq
has hq 'SELECT COUNT(*) FROM orders;' <<'END'
10
1 rows
END

# ---- a last file is lost: nothing follows it but the heartbeat

for office in north south east west shop; do
    run $office
done
sql hq "INSERT INTO item VALUES (3, 'desk', 120); COMMIT;"
run hq
rm box/north/*
run hq north hq
told north ' gap hq '
for office in north south east west shop; do
    run $office
    has $office 'SELECT * FROM item WHERE id = 3;' <<'END'
3|'desk'|120
1 rows
END
done

# ---- a conflict: 50 were there, the shop sold 5 and the head office 2

run hq shop
sql shop "UPDATE orders SET qty = 45 WHERE id = 5; COMMIT;"
sql hq "UPDATE orders SET qty = 48 WHERE id = 5; COMMIT;"
run shop hq
told hq ' conflict shop '
run shop
has hq 'SELECT qty FROM orders WHERE id = 5;' <<'END'
43
1 rows
END
has shop 'SELECT qty FROM orders WHERE id = 5;' <<'END'
43
1 rows
END

# ---- Duplicate: INSERT the row of the office anew, there, under a key that is free on both sides; run both agents, then SYNCHRONIZE

sql north "INSERT INTO orders VALUES (7, 'north', 70, 'mine'); COMMIT;"
sql hq "INSERT INTO orders VALUES (7, 'north', 71, 'ours'); COMMIT;"
run north hq north
clashed hq Duplicate
clashed north Duplicate
sql north "INSERT INTO orders VALUES (1007, 'north', 70, 'mine'); COMMIT;"
run north hq
synchronize north

# ---- NoRow: it was deleted, and is to stay: INSERT it again at the database above

sql hq "DELETE FROM orders WHERE id = 2001; COMMIT;"
sql south "UPDATE orders SET qty = 22 WHERE id = 2001; COMMIT;"
run south hq south
clashed hq NoRow
has south 'SELECT COUNT(*) FROM orders WHERE id = 2001;' <<'END'
0
1 rows
END
sql hq "INSERT INTO orders VALUES (2001, 'south', 22, 's1'); COMMIT;"
run hq south

# ---- NoColumn: publish at the office the columns alone that are here; then DELETE and INSERT each row that was skipped, both in one transaction

sql south "INSERT INTO orders VALUES (2002, 'south', 6, 's2', 9); COMMIT;"
run south hq
clashed hq NoColumn
sql south "DROP SUBSCRIPTION TO up FOR hq; DROP PUBLICATION up;
CREATE PUBLICATION up (TABLE orders (id, office, qty, note), TABLE beat); CREATE SUBSCRIPTION TO up FOR hq; START SUBSCRIPTION TO up FOR hq;
DELETE FROM orders WHERE id = 2002; INSERT INTO orders VALUES (2002, 'south', 6, 's2', 9); COMMIT;"
run south hq
clashed hq NoRow

# ---- BadValue and Null: of an INSERT anew under a free key, with a value that fits; of an UPDATE once more, to a value that fits

sql west "INSERT INTO orders VALUES (4002, 'west', 7, 'much too long'); COMMIT;"
run west hq
clashed hq BadValue
sql west "INSERT INTO orders (id, office, qty) VALUES (4004, 'west', 8); COMMIT;"
run west hq
clashed hq Null
sql west "UPDATE orders SET note = 'far too long' WHERE id = 4001; COMMIT;"
run west hq
clashed hq BadValue
sql west "INSERT INTO orders VALUES (4003, 'west', 7, 'long'), (4005, 'west', 8, 'none'); UPDATE orders SET note = 'short' WHERE id = 4001; COMMIT;"
run west hq
told hq ' conflict west '
synchronize west

# ---- Trigger: DROP it and CREATE it right; the value here stands, and comes to the office: commit the right one here

sql hq "UPDATE orders SET qty = 2147483647 WHERE id = 5; COMMIT;"
sql shop "UPDATE orders SET qty = 44 WHERE id = 5; COMMIT;"
run shop hq shop
clashed hq Trigger
has shop 'SELECT qty FROM orders WHERE id = 5;' <<'END'
2147483647
1 rows
END
sql hq "DROP TRIGGER add_up;
CREATE TRIGGER add_up RESOLVE UPDATE OF qty ON orders REFERENCING OLD AS o NEW AS n REMOTE AS r FOR EACH ROW
  BEGIN IF o.qty > 1000000 THEN SET n.qty = o.qty; ELSE SET n.qty = o.qty + n.qty - r.qty; END IF; END;
UPDATE orders SET qty = 46 WHERE id = 5; COMMIT;"
run hq shop

# ---- Statement: take away what stands in its way at the office, and pass it on again with ONLY

sql south "CREATE TABLE price (item INTEGER PRIMARY KEY, euro INTEGER);"
passed=$(page_lines 'PASSTHROUGH FOR south, east;')
sql hq "$passed"
run hq south east
clashed south Statement
sql south "DROP TABLE price;"
sql hq "PASSTHROUGH ONLY FOR south; ${passed#*;}"
run hq south
for office in hq south east; do
    has $office 'SELECT COUNT(*) FROM price;' <<'END'
0
1 rows
END
done

# ---- the north is replaced: its disk is lost, with an order that it had not sent

run north hq
sql north "INSERT INTO orders VALUES (1008, 'north', 9, 'gone'); COMMIT;"
rm north.*
run hq
dbremote init north2 north2 >/dev/null
sql north2 "$(office_script north2)"
page_lines 'UPDATE beat SET up' >north2.before.sql
sql hq "$(page_block 'GRANT REMOTE TO north2;')"
run hq north2
sql north2 "INSERT INTO orders VALUES (1008, 'north', 9, 'gone'); COMMIT;"
run north2 hq

# ---- the west is closed: it sends all, is dropped, and its rows go to the east

run west hq
dbremote agent west --mail box -r >/dev/null
dbremote show west | awk '$1 == "user" && $6 != $7 { exit 1 }' || wrong 'the west has sent what is not confirmed'
sql hq "STOP SUBSCRIPTION TO shop ('west') FOR west; DROP SUBSCRIPTION TO shop ('west') FOR west;
UPDATE orders SET office = 'east' WHERE office = 'west'; COMMIT;"
run hq east

# ---- the shop is copied, and loses its root

page_block 'flock shop.lock cp' | sed "s,/backup/,$folder/backup/," >copy
mkdir backup/shop-monday
sh ./copy || wrong "the page's line for a copy ends with status $?"
has backup/shop-monday/shop 'SELECT COUNT(*) FROM orders;' <<'END'
2
1 rows
END
rm shop.root
# the page has this command within a sentence
grep -oF "printf '\\0' > shop.root" "$page" >root || wrong 'the page lacks the byte of a root'
sh ./root
run shop hq shop

# ---- where each row is

for office in hq north2 south east west shop; do
    has $office 'SELECT * FROM item;' <<'END'
1|'lamp'|40
2|'chair'|65
3|'desk'|120
3 rows
END
done
has hq 'SELECT * FROM orders;' <<'END'
1|'north'|10|'a'
2|'south'|20|'b'
3|'east'|30|'c'
4|'east'|40|'d'
5|'shop'|46|'e'
7|'north'|71|'ours'
1001|'north'|1|'n1'
1007|'north'|70|'mine'
1008|'north'|9|'gone'
2001|'south'|22|'s1'
2002|'south'|6|'s2'
3001|'east'|3|'e1'
4001|'east'|4|'short'
4003|'east'|7|'long'
4005|'east'|8|'none'
5001|'shop'|5|'p1'
16 rows
END
has north2 'SELECT * FROM orders;' <<'END'
1|'north'|10|'a'
7|'north'|71|'ours'
1001|'north'|1|'n1'
1007|'north'|70|'mine'
1008|'north'|9|'gone'
5 rows
END
has south 'SELECT * FROM orders;' <<'END'
2|'south'|20|'b'|NULL
2001|'south'|22|'s1'|NULL
2002|'south'|6|'s2'|9
3 rows
END
has east 'SELECT * FROM orders;' <<'END'
3|'east'|30|'c'
4|'east'|40|'d'
3001|'east'|3|'e1'
4001|'east'|4|'short'
4003|'east'|7|'long'
4005|'east'|8|'none'
6 rows
END
has shop 'SELECT * FROM orders;' <<'END'
5|'shop'|46|'e'
5001|'shop'|5|'p1'
2 rows
END
has west 'SELECT * FROM orders;' <<'END'
4|'west'|40|'d'
4001|'west'|4|'short'
4003|'west'|7|'long'
4005|'west'|8|'none'
4 rows
END
# the page's way to find two sides that differ, of each office that goes on
sum=$(grep -oE "SELECT SUM\(qty\) FROM orders WHERE office = 'north';" "$page" | head -n 1)
for office in north2:north south:south east:east shop:shop; do
    query=$(printf '%s\n' "$sum" | sed "s/'north'/'${office#*:}'/")
    here=$(printf '%s\n' "$query" | dbremote sql hq)
    there=$(printf '%s\n' "$query" | dbremote sql "${office%:*}")
    [ "$here" = "$there" ] || wrong "hq and ${office%:*} differ: $here, $there"
done
for name in ./*.clashes; do
    [ ! -s "$name" ] || wrong "$name: $(cat "$name")"
done
[ ! -e .wrong ] || exit 1
echo 'office: each row is where it is to be'
