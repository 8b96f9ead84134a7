# Completion for bash of the words of pnmpipe and its helpers, and inside CHAIN's open quote of the tools and their
# options.

# what may stand next in a stage whose words so far are given, without the one that is being typed
_pnmpipe_stage() {
    local words
    case ${1-} in
        # make tables writes tools: {name}) words='{words}' ;;
        '') words='pnminvert pamcut pamdepth pamchannel pamenlarge pamflip pnmtile' ;;
        pamcut) words='-left -right -top -bottom -width -height' ;;
        pamdepth) words='1 255 65535' ;;
        pamchannel) words='0 1 2 3 -tupletype' ;;
        pamenlarge) words='2 3 4 -xscale -yscale' ;;
        pamflip) words='-lr -leftright -tb -topbottom -xy -transpose -r90 -r180 -r270 -null' ;;
        # up to here
        *) words='' ;;
    esac
    printf '%s' "$words"
}

# the words of a chain that go on from the one that is being typed; behind an empty one come options
_pnmpipe_chain() {
    local current=$1 options=$2 quote='' text prefix last stage
    local -a typed
    case $current in
        \'*) quote="'" ;;
        \"*) quote='"' ;;
    esac
    if [[ -z $quote ]]; then
        # a chain stands in quotes: each tool comes with the one that opens them
        mapfile -t COMPREPLY < <(compgen -P "'" -W "$(_pnmpipe_stage)" -- "$current")
        # shellcheck disable=SC2206
        [[ -n $current ]] || COMPREPLY+=($options)
        compopt -o nospace 2> /dev/null
        return
    fi
    text=${current#"$quote"}
    last=${text##*[[:blank:]|]}
    prefix=${text%"$last"}
    stage=${prefix##*|}
    read -r -a typed <<< "$stage"
    # the reply is all that follows the quote
    mapfile -t COMPREPLY < <(compgen -W "$(_pnmpipe_stage "${typed[0]-}")" -- "$last")
    COMPREPLY=("${COMPREPLY[@]/#/$prefix}")
    # a single reply would close the quote, and a second one that goes on keeps it open
    [[ ${#COMPREPLY[@]} -ne 1 ]] || COMPREPLY=("${COMPREPLY[0]} " "${COMPREPLY[0]} |")
    compopt -o nospace 2> /dev/null
}

# whether an option has a value that is no file, and which values it may have, as `words`
_pnmpipe_values() {
    case $1 in
        # make tables writes values: {either}) words='{words}' ;;
        --lanes) words='1 2 4 8' ;;
        --ring) words='1 16 64 256 1024' ;;
        --jobs | --small | --machines | --start | --digits) words='' ;;
        # up to here
        *) return 1 ;;
    esac
}

# whether nothing but options stands before the word that is being typed
_pnmpipe_at_chain() {
    local at words
    for ((at = 1; at < COMP_CWORD; at++)); do
        if _pnmpipe_values "${COMP_WORDS[at]}"; then
            at=$((at + 1))
        elif [[ ${COMP_WORDS[at]} != -* ]]; then
            return 1
        fi
    done
}

# the files whose names go on from the word that is being typed
_pnmpipe_file() {
    mapfile -t COMPREPLY < <(compgen -f -- "$1")
    compopt -o filenames 2> /dev/null
}

_pnmpipe() {
    local current=${COMP_WORDS[COMP_CWORD]} before=${COMP_WORDS[COMP_CWORD - 1]} options='--help --version' words
    COMPREPLY=()
    case ${COMP_WORDS[0]##*/} in
        # make tables writes programs: {either}) options+=' {options}' ;;&
        pnmpipe | pnmpipe-explain | pnmpipe-files) options+=' --ring --lanes --plain' ;;&
        pnmpipe-explain) options+=' --brief --no-input' ;;&
        pnmpipe-files) options+=' --jobs --small --machines --resume --keep-folders --suffix --bar --names --names0' ;;&
        pnmpipe-split) options+=' --start --digits --names --force' ;;&
        pnmpipe-translate) options+=' --file' ;;&
        # up to here
    esac
    # a redirection's operator is a word of its own, and a file follows it
    [[ $current != ?(&)[\<\>]* ]] || { before=$current; current=''; }
    [[ $before != ?(&)[\<\>]* ]] || { _pnmpipe_file "$current"; return; }
    if _pnmpipe_values "$before"; then
        mapfile -t COMPREPLY < <(compgen -W "$words" -- "$current")
        return
    fi
    if [[ $current == -* ]]; then
        mapfile -t COMPREPLY < <(compgen -W "$options" -- "$current")
        return
    fi
    case ${COMP_WORDS[0]##*/} in
        pnmpipe | pnmpipe-explain) _pnmpipe_chain "$current" "$options"; return ;;
        pnmpipe-files) ! _pnmpipe_at_chain || { _pnmpipe_chain "$current" "$options"; return; } ;;
    esac
    _pnmpipe_file "$current"
}

complete -F _pnmpipe pnmpipe pnmpipe-explain pnmpipe-files pnmpipe-split pnmpipe-translate
