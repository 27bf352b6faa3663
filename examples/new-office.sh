#!/bin/sh
# Opens an office: makes its database, and has the head office grant it, subscribe it and send it what it is to see.
#
# Usage: examples/new-office.sh HQ OFFICE PUBLICATION [VALUE] < script
#
# HQ is the name of the head office's database, OFFICE that of the office's, which is its publisher too. The script makes the office's tables, its publication, and
# what the head office has of it (GRANT CONSOLIDATE, CREATE and START SUBSCRIPTION). VALUE is that of the subscription at the head office, as SQL writes it:
# "'north'" or 5. DBREMOTE in the environment is the program, by default the launcher beside this folder. Run both agents behind it.
#
# A database that was made on another machine is carried to the office, all five files, before its first run; it is not run where it was made.
top=$(cd "$(dirname "$0")/.." && pwd -P) || exit 125
program=${DBREMOTE:-$top/dbremote}
if [ $# -lt 3 ] || [ $# -gt 4 ]; then
    echo "usage: new-office.sh HQ OFFICE PUBLICATION [VALUE] < script" >&2
    exit 2
fi
hq=$1
office=$2
subscription="SUBSCRIPTION TO $3${4:+ ($4)} FOR $office"

fail() {
    echo "new-office: $*" >&2
    exit 1
}

shown=$("$program" show "$hq") || fail "$hq: $shown"
# A name that was once granted is known to the head office by its old log.
if printf '%s\n' "$shown" | awk -v office="$office" '$1 == "user" && $2 == tolower(office) { known = 1 } END { exit !known }'; then
    fail "$hq knows $office already: an office is made anew under a new name"
fi
lines=$("$program" init "$office" "$office") || fail "$office: $lines"
lines=$("$program" sql "$office") || fail "$office is made, but its script is not done: $(printf '%s\n' "$lines" | tail -n 1)"
lines=$("$program" sql "$hq") <<END || fail "$office is made, but not granted at $hq: $(printf '%s\n' "$lines" | tail -n 1)"
GRANT REMOTE TO $office;
CREATE $subscription;
START $subscription;
SYNCHRONIZE $subscription;
END
echo "$office is granted at $hq, and gets its rows with the next runs of both agents"
