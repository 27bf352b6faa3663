#!/bin/sh
# Replaces an office whose disk is lost, or that was put back from a copy, by one under a new name. It gets the rows of the old one.
#
# Usage: examples/replace-office.sh HQ OLD NEW PUBLICATION [VALUE] < script
#
# The words and the script are those of new-office.sh; OLD is the publisher of the old office. What the old one has sent and is not taken yet comes all the same:
# run the head office's agent once before. What it had not sent is to be committed at the new one by hand.
here=$(cd "$(dirname "$0")" && pwd -P) || exit 125
program=${DBREMOTE:-$here/../dbremote}
if [ $# -lt 4 ] || [ $# -gt 5 ]; then
    echo "usage: replace-office.sh HQ OLD NEW PUBLICATION [VALUE] < script" >&2
    exit 2
fi
hq=$1
old=$2
shift 2
if ! "$program" show "$hq" | awk -v old="$old" '$1 == "user" && $2 == tolower(old) { known = 1 } END { exit !known }'; then
    echo "replace-office: $hq knows no $old" >&2
    exit 1
fi
"$here/new-office.sh" "$hq" "$@" || exit 1
subscription="SUBSCRIPTION TO $2${3:+ ($3)} FOR $old"
lines=$("$program" sql "$hq") <<END || {
STOP $subscription;
DROP $subscription;
END
    echo "replace-office: $1 is there, but $old goes on at $hq: $(printf '%s\n' "$lines" | tail -n 1)" >&2
    exit 1
}
echo "$old gets nothing more"
