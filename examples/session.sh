#!/bin/sh
# A session on one database: it is made, a table and rows are committed, a held key is refused, and a second run goes on where the first one ended.
#
# Usage: examples/session.sh [PROGRAM]
#
# PROGRAM is dbremote, by default the launcher beside this folder. It works in a new folder, which it removes at the end, and prints each
# command with what it said. examples/session.txt has what it prints.
top=$(cd "$(dirname "$0")/.." && pwd -P) || exit 125
program=${1:-$top/dbremote}
case $program in
    /*) ;;
    *) program=$(pwd -P)/$program ;;
esac
folder=$(mktemp -d) || exit 125
trap 'rm -rf "$folder"' EXIT
cd "$folder" || exit 125

# Runs dbremote with the words after the script's lines, and says its status where it is not 0.
run() {
    script=$1
    shift
    echo "\$ dbremote $*"
    printf '%s' "$script" | "$program" "$@"
    status=$?
    [ $status -eq 0 ] || echo "status $status"
}

run '' init c1 cons
run "CREATE TABLE orders (id INTEGER PRIMARY KEY, item VARCHAR(20) NOT NULL, due DATE);
INSERT INTO orders VALUES (1, 'lamp', '2024-02-29'), (2, 'chair', NULL);
COMMIT;
SELECT item, due FROM orders WHERE due IS NOT NULL;
INSERT INTO orders VALUES (2, 'table', NULL);
" sql c1
run "UPDATE orders SET item = 'stool' WHERE id = 2; COMMIT; SELECT * FROM orders;" sql c1
run '' init c1 cons
run '' agent c1
