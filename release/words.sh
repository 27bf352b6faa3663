# shellcheck shell=sh
# Functions for the launcher: whether words are right, and how they go. It is the program that decides; where the two differ, the usage alone is
# missing, or printed by a shell that waits for the program.

usage() {
    cat <<'END'
usage: dbremote init NAME USER                 makes a database; USER is the name that partners know it by
       dbremote sql NAME < SCRIPT              runs the script that standard input has
       dbremote agent NAME --mail FOLDER [-r] [-s] [-p] [-x] [-l N]
                                               takes the mail of a database and sends what is due, once
       dbremote show NAME                      prints what the database is
       dbremote demo SEED COUNT                replicates four databases in memory
README.md and docs/dbremote.1 say more.
END
}

are_right() {
    [ $# -gt 0 ] || return 1
    command=$1
    shift
    case $command in
        sql | show | init | demo) are_plain "$command" "$@" ;;
        agent) are_for_agent "$@" ;;
        *) return 1 ;;
    esac
}

# Words behind a command without options. The first `--` stands for nothing; before it no word begins with `-`.
are_plain() {
    command=$1
    shift
    first=
    second=
    count=0
    ended=
    for word; do
        case $ended$word in
            --)
                ended=1
                continue
                ;;
            -?*) return 1 ;;
        esac
        count=$((count + 1))
        case $count in
            1) first=$word ;;
            2) second=$word ;;
        esac
    done
    case $command$count in
        sql1 | show1) is_place "$first" ;;
        init2) is_place "$first" && is_name "$second" ;;
        demo2) is_number "$first" 18446744073709551615 && is_number "$second" 100000 ;;
        *) return 1 ;;
    esac
}

# Words behind `agent`: NAME and options in any order, each once.
are_for_agent() {
    name=
    seen=
    while [ $# -gt 0 ]; do
        word=$1
        shift
        case $word in
            --)
                [ $# -eq 0 ] || { [ $# -eq 1 ] && take_name "$1"; } || return 1
                break
                ;;
            --mail)
                case $1 in
                    -?*) return 1 ;;
                esac
                { [ $# -gt 0 ] && take mail && is_place "$1"; } || return 1
                shift
                ;;
            --mail=*) { take mail && is_place "${word#*=}"; } || return 1 ;;
            --*) return 1 ;;
            -?*)
                take_flags "${word#-}" || return 1
                if [ -n "$awaits" ]; then
                    { [ $# -gt 0 ] && is_limit "$1"; } || return 1
                    shift
                fi
                ;;
            *) take_name "$word" || return 1 ;;
        esac
    done
    case "$seen " in
        *' mail '*) [ -n "$name" ] ;;
        *) return 1 ;;
    esac
}

# Flags that stand behind one `-`; `l` has its number behind it, or awaits it as the next word.
take_flags() {
    flags=$1
    awaits=
    while [ -n "$flags" ]; do
        rest=${flags#?}
        case $flags in
            [rspx]*) take "${flags%"$rest"}" || return 1 ;;
            l)
                take l || return 1
                awaits=1
                ;;
            l*)
                { take l && is_limit "${rest#=}"; } || return 1
                return
                ;;
            *) return 1 ;;
        esac
        flags=$rest
    done
}

# Takes an option that was not given before.
take() {
    case "$seen " in
        *" $1 "*) return 1 ;;
    esac
    seen="$seen $1"
}

take_name() {
    { [ -z "$name" ] && is_place "$1"; } || return 1
    name=$1
}

# Whether a word is a NAME or a FOLDER: 1 to 255 bytes of UTF-8.
is_place() {
    case $1 in
        '') return 1 ;;
        *[!\ -~]*) [ "$(printf %s "$1" | wc -c)" -le 255 ] && printf %s "$1" | iconv -f UTF-8 -t UTF-16LE >/dev/null 2>&1 ;;
        *) [ ${#1} -le 255 ] ;;
    esac
}

# Whether a word is a USER: 1 to 64 letters, digits and `_`, the first of them no digit.
is_name() {
    case $1 in
        '' | [0-9]* | *[!A-Za-z0-9_]*) return 1 ;;
    esac
    [ ${#1} -le 64 ]
}

is_limit() {
    is_number "$1" 1048576 && [ "$1" -ge 10000 ]
}

# Whether a word is a number in digits, without a sign or a leading zero, and no greater than that one.
is_number() {
    case $1 in
        '' | 0?* | *[!0-9]*) return 1 ;;
    esac
    if [ ${#1} -eq ${#2} ]; then
        [ "$(printf '%s\n' "$1" "$2" | LC_ALL=C sort | sed -n 1p)" = "$1" ]
    else
        [ ${#1} -lt ${#2} ]
    fi
}
