#!/bin/sh
# Looks at databases over `show`, and prints what somebody should look at. To be run from time to time; what it saw is kept for the next look in NAME.watched.
#
# Usage: examples/watch.sh NAME ..
#
#   NAME: USER has not confirmed for H hours     what was sent is not confirmed: it is not carried, USER's agent does not run, or a last file was lost
#   NAME: .. is missing from USER                asks for a resend rose since the last look: files of USER are lost on their way here
#   NAME: USER asked ..                          asks that came from USER rose: files are lost on their way to him
#   NAME: the log has N of M bytes               it nears its end
#   NAME: FAULT                                  `show` ended with a fault
#
# HOURS in the environment says how long is long (24), PERCENT when a log nears its end (80), NOW the time in seconds since 1970, DBREMOTE the program. The status
# is 1 where something was printed.
top=$(cd "$(dirname "$0")/.." && pwd -P) || exit 125
program=${DBREMOTE:-$top/dbremote}
now=${NOW:-$(date +%s)}
if [ $# -eq 0 ]; then
    echo 'usage: watch.sh NAME ..' >&2
    exit 2
fi
found=0

# What `show` says, while no run of loop.sh is under way.
shown() {
    if command -v flock >/dev/null && [ -e "$1.lock" ]; then
        flock "$1.lock" "$program" show "$1"
    else
        "$program" show "$1"
    fi
}

for name; do
    kept=$name.watched
    if ! lines=$(shown "$name"); then
        printf '%s: %s\n' "$name" "$(printf '%s\n' "$lines" | tail -n 1)"
        found=1
        continue
    fi
    : >>"$kept" || exit 7
    # A line of the kept file: the user, since when he has not confirmed or 0, the offset that he confirmed then, the asks raised here, and those that came from him
    printf '%s\n' "$lines" | KEPT=$kept NAME=$name awk -v now="$now" -v hours="${HOURS:-24}" -v percent="${PERCENT:-80}" '
        function say(text) { print ENVIRON["NAME"] ": " text; found = 1 }
        function times(count) { return count == 1 ? "once" : count " times" }
        FILENAME == ENVIRON["KEPT"] { since[$1] = $2; confirmed[$1] = $3; raised[$1] = $4; asked[$1] = $5; known[$1] = 1; next }
        $1 == "base" { base = $2 }
        $1 == "end" && ($2 - base) * 100 >= 1073741824 * percent { say("the log has " $2 - base " of 1073741824 bytes") }
        $1 == "user" {
            waits = 0
            if ($6 > $7) {
                waits = known[$2] && since[$2] > 0 && confirmed[$2] == $7 ? since[$2] : now
                if (now - waits >= hours * 3600)
                    say($2 " has not confirmed for " int((now - waits) / 3600) " hours: sent up to " $6 ", confirmed " $7)
            }
            if (known[$2] && $13 > raised[$2]) say("what is missing from " $2 " was asked for " times($13 - raised[$2]) " since the last look")
            if (known[$2] && $9 > asked[$2]) say($2 " asked " times($9 - asked[$2]) " for what he misses since the last look")
            print $2, waits, $7, $13, $9 > (ENVIRON["KEPT"] ".new")
        }
        END { printf "" > (ENVIRON["KEPT"] ".new"); exit found }
    ' "$kept" - || found=1
    mv "$kept.new" "$kept" || exit 7
done
exit $found
