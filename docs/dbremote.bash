# Completion of dbremote's words for bash: commands, databases by their roots, folders, and the agent's options in any order.

# The databases whose names begin like a word, and the folders on the way to one. A root without a byte is none.
_dbremote_names() {
    local name
    compopt -o filenames 2>/dev/null
    while IFS= read -r name; do
        [ ! -f "$name" ] || [ ! -s "$name" ] || COMPREPLY+=("${name%.root}")
    done < <(compgen -f -X '!*.root' -- "$1")
    while IFS= read -r name; do
        [ -z "$(find -L "$name" -maxdepth 3 -name '*.root' -type f -size +0 -print -quit 2>/dev/null)" ] || COMPREPLY+=("$name")
    done < <(compgen -d -- "$1")
}

_dbremote_folders() {
    local name
    compopt -o filenames 2>/dev/null
    while IFS= read -r name; do
        COMPREPLY+=("$name")
    done < <(compgen -d -- "$1")
}

_dbremote() {
    local word=${COMP_WORDS[COMP_CWORD]} command=${COMP_WORDS[1]}
    COMPREPLY=()
    if [ "$COMP_CWORD" -eq 1 ]; then
        mapfile -t COMPREPLY < <(compgen -W 'init sql agent show demo' -- "$word")
    elif [ "$command" = agent ]; then
        _dbremote_agent "$word"
    elif [ "$COMP_CWORD" -eq 2 ] || { [ "$COMP_CWORD" -eq 3 ] && [ "${COMP_WORDS[2]}" = -- ]; }; then
        case $command in
            sql | show) _dbremote_names "$word" ;;
            init) _dbremote_folders "$word" ;;
        esac
    fi
}

# Behind `agent`: a folder behind --mail, nothing behind -l; else the database where it is not named yet, and options. bash has `=` as a word of its own.
_dbremote_agent() {
    local awaits='' named='' ended='' seen='' index word
    for ((index = 2; index < COMP_CWORD; index++)); do
        word=${COMP_WORDS[index]}
        if [ -n "$awaits" ]; then
            [ "$word" = = ] || awaits=
        elif [ -n "$ended" ]; then
            named=1
        else
            _dbremote_pass "$word"
        fi
    done
    word=$1
    [ "$word" != = ] || word=
    case $awaits in
        mail) _dbremote_folders "$word" ;;
        limit) ;;
        *) _dbremote_next "$word" ;;
    esac
}

# Goes past a word that stands before the one to complete.
_dbremote_pass() {
    case $1 in
        --) ended=1 ;;
        --mail)
            seen+=' --mail'
            awaits=mail
            ;;
        --mail=*) seen+=' --mail' ;;
        -[rspxl]*)
            _dbremote_flags "${1#-}"
            ;;
        *) named=1 ;;
    esac
}

# Flags behind one `-`, of which the last may await its number.
_dbremote_flags() {
    local flags=$1
    while [ -n "$flags" ]; do
        seen+=" -${flags:0:1}"
        case $flags in
            l) awaits=limit ;;
            l*) return ;;
        esac
        flags=${flags:1}
    done
}

_dbremote_next() {
    local option options=()
    if [ -z "$ended" ] && { [ -n "$named" ] || [ "${1:0:1}" = - ]; }; then
        for option in --mail -r -s -p -x -l; do
            [[ "$seen " == *" $option "* ]] || options+=("$option")
        done
        mapfile -t COMPREPLY < <(compgen -W "${options[*]}" -- "$1")
    elif [ -z "$named" ]; then
        _dbremote_names "$1"
    fi
}
complete -F _dbremote dbremote
