#!/bin/sh
# A day of a head office and its branches: orders come in, two prices meet, a file is lost and asked for again, and a new office opens.
#
# Usage: examples/day.sh [PROGRAM]
#
# PROGRAM is dbremote, by default the launcher beside this folder. It works in a new folder, which it removes at the end, and prints each
# command, the script that it is given, and what it said. examples/day.txt has what it prints.
top=$(cd "$(dirname "$0")/.." && pwd -P) || exit 125
program=${1:-$top/dbremote}
case $program in
    /*) ;;
    *) program=$(pwd -P)/$program ;;
esac
folder=$(mktemp -d) || exit 125
trap 'rm -rf "$folder"' EXIT
cd "$folder" || exit 125

title() {
    printf '\n# %s\n' "$*"
}

# Says a status that is not 0.
tell() {
    [ "$1" -eq 0 ] || echo "status $1"
}

# Runs dbremote with these words.
run() {
    echo "\$ dbremote $*"
    "$program" "$@" </dev/null
    tell $?
}

# Runs a script on a database.
sql() {
    echo "\$ dbremote sql $1"
    printf '%s\n' "$2" | sed 's/^/> /'
    printf '%s\n' "$2" | "$program" sql "$1"
    tell $?
}

# Runs the agents of these databases, one after the other. All hand their files to each other through the folder box.
agents() {
    for name; do
        run agent "$name" --mail box
    done
}

# Opens an office: its database, and what the head office grants it. It sees each item, and the orders that are its own.
open_office() {
    run init "$1" "$1"
    sql "$1" "CREATE TABLE item (id INTEGER PRIMARY KEY, name VARCHAR(20), price INTEGER);
CREATE TABLE orders (id INTEGER PRIMARY KEY, office VARCHAR(8), item INTEGER, qty INTEGER);
GRANT CONSOLIDATE TO hq;
CREATE PUBLICATION shop (TABLE item, TABLE orders);
CREATE SUBSCRIPTION TO shop FOR hq;
START SUBSCRIPTION TO shop FOR hq;"
    sql hq "GRANT REMOTE TO $1;
CREATE SUBSCRIPTION TO shop ('$1') FOR $1;
START SUBSCRIPTION TO shop ('$1') FOR $1;
SYNCHRONIZE SUBSCRIPTION TO shop ('$1') FOR $1;"
}

title 'The head office, with its price list. Where two prices meet, its trigger lets the higher one stand'
run init hq hq
sql hq "CREATE TABLE item (id INTEGER PRIMARY KEY, name VARCHAR(20), price INTEGER);
CREATE TABLE orders (id INTEGER PRIMARY KEY, office VARCHAR(8), item INTEGER, qty INTEGER);
CREATE PUBLICATION shop (TABLE item, TABLE orders SUBSCRIBE BY office);
CREATE TRIGGER dearer RESOLVE UPDATE OF price ON item REFERENCING OLD AS o NEW AS n
  FOR EACH ROW BEGIN IF o.price > n.price THEN SET n.price = o.price; END IF; END;
INSERT INTO item VALUES (1, 'lamp', 40), (2, 'chair', 65); COMMIT;"

title 'Two offices below it'
open_office north
open_office south

title 'The price list goes out'
agents hq north south

title 'Orders come in'
sql north "INSERT INTO orders VALUES (1001, 'north', 1, 2), (1002, 'north', 2, 4); COMMIT;"
sql south "INSERT INTO orders VALUES (2001, 'south', 1, 1); COMMIT;"
agents north south hq
sql hq "SELECT o.office, o.id, i.name, o.qty * i.price FROM orders AS o JOIN item AS i ON i.id = o.item;"

title 'Two prices for the lamp: the north goes down, the head office goes up'
sql north "UPDATE item SET price = 38 WHERE id = 1; COMMIT;"
sql hq "UPDATE item SET price = 45 WHERE id = 1; COMMIT;"
agents north hq north south
sql north "SELECT * FROM item;"

title 'A file for the south is lost on its way, and comes again once the south has asked for it'
sql hq "INSERT INTO item VALUES (3, 'desk', 120); COMMIT;"
agents hq
echo '$ rm box/south/hq.0000000000000004'
rm box/south/hq.0000000000000004
sql hq "INSERT INTO item VALUES (4, 'shelf', 30); COMMIT;"
agents hq south hq south
sql south "SELECT * FROM item;"

title 'A new office opens, and takes an order over from the north'
open_office east
sql hq "UPDATE orders SET office = 'east' WHERE id = 1002; COMMIT;"
agents hq east north
sql east "SELECT * FROM orders; SELECT COUNT(*) FROM item;"
sql north "SELECT * FROM orders; SELECT COUNT(*) FROM item;"
run show hq
