# Completion for bash of the words of cueplayer: jobs, options, files.
# shellcheck shell=bash

# dev/pages writes the jobs and options from the program's table.
_cueplayer_jobs="check explain cues look slots play live rehearse listen watch"

# The options of a job.
_cueplayer_options() {
    case $1 in
        check) echo --strict ;;
        cues) echo --json ;;
        look) echo --cid ;;
        slots) echo --base ;;
        play) echo --to --cid --priority --base --interface --any-route --name --ttl ;;
        live) echo --to --cid --priority --base --interface --any-route --name --ttl --record \
            --resume --spare --start --follow --patience --end-with-input ;;
    esac
}

# The words of a job that are no options, in their order.
_cueplayer_words() {
    case $1 in
        check | explain | cues | play | live) echo SHOW ;;
        look | slots) echo SHOW CUE ;;
        rehearse) echo SHOW SCRIPT ;;
        listen) echo ADDR UNIVERSE COUNT ;;
        watch) echo UNIVERSE ;;
    esac
}

# The word behind an option; none behind a flag.
_cueplayer_value() {
    case $1 in
        --cid) echo UUID ;;
        --base) echo U ;;
        --to) echo TARGET ;;
        --priority) echo P ;;
        --interface) echo CARD ;;
        --name) echo TEXT ;;
        --ttl) echo HOPS ;;
        --record | --follow) echo FILE ;;
        --start) echo N ;;
        --patience) echo MS ;;
    esac
}
# end of the jobs and options

# `premiere` is a tool beside the program.
_cueplayer_premiere="--to --cid --priority --base --interface --any-route --name --ttl --night"
_cueplayer_premiere+=" --anyway --listen --port --host --new-pins --certificate --key --osc"

# The word behind an option, also of `premiere`; none behind a flag.
_cueplayer_any_value() {
    case $1 in
        --night) echo FOLDER ;;
        --certificate | --key) echo FILE ;;
        --listen | --osc | --port | --host) echo ADDR ;;
        *) _cueplayer_value "$1" ;;
    esac
}

# The names of this machine's network cards.
_cueplayer_cards() {
    local card
    for card in /sys/class/net/*; do echo "${card##*/}"; done
}

# Whether a word of the job `$1` names a file: the one behind `$2` others.
_cueplayer_is_file() {
    local -a named
    [[ $1/$2 != premiere/0 ]] || return 0
    read -ra named < <(_cueplayer_words "$1")
    [[ ${named[$2]-} == SHOW || ${named[$2]-} == SCRIPT ]]
}

# Fills the caller's `words` with those up to the cursor. Readline parts --cid=UUID and
# a.b.c.d:port into three words each: here the first is two, and the second is one.
_cueplayer_join() {
    local raw is_joined=''
    for raw in "${COMP_WORDS[@]:1:COMP_CWORD}"; do
        if ((${#words[@]} == 0)); then
            words=("$raw")
        elif [[ $raw == = && ${words[-1]} == --* ]]; then
            words+=("")
            is_joined=1
        elif [[ -n $is_joined || $raw == [:=]* ]]; then
            words[-1]+=$raw
            is_joined=''
            [[ $raw != *[:=] ]] || is_joined=1
        else
            words+=("$raw")
        fi
    done
    ((${#words[@]})) || words=("")
}

# Fills the caller's `job`, the `option` whose value comes next, the options `used`, the number of
# words of the job in `place`, and whether there were two dashes, by the words given.
_cueplayer_parse() {
    local word
    for word; do
        if [[ -n $option ]]; then
            option=''
        elif [[ $word == -- ]]; then
            words_only=1
        elif [[ $word == -?* && -z $words_only ]]; then
            [[ -z $(_cueplayer_any_value "$word") ]] || option=$word
            used+="$word "
        elif [[ -z $job ]]; then
            job=$word
        else
            ((++place))
        fi
    done
}

# Fills COMPREPLY with what may stand where the cursor is.
_cueplayer() {
    local job='' option='' used=' ' place=0 words_only='' choices='' kind='' options name
    local -a words=()
    _cueplayer_join
    local current=${words[-1]}
    _cueplayer_parse "${words[@]:0:${#words[@]}-1}"
    if [[ -n $option ]]; then
        case $(_cueplayer_any_value "$option") in
            FILE) kind=-f ;;
            FOLDER) kind=-d ;;
            TARGET) choices=${current%"${current##*=}"}239.255.0.0 ;;
            CARD) choices=$(_cueplayer_cards) ;;
        esac
    elif [[ -z $job ]]; then
        choices="$_cueplayer_jobs premiere help"
        [[ $current != -* ]] || choices="--help --version"
    elif [[ $job == help ]]; then
        ((place)) || choices=$_cueplayer_jobs
    elif [[ $current == -* && -z $words_only ]]; then
        options=$(_cueplayer_options "$job")
        [[ $job != premiere ]] || options=$_cueplayer_premiere
        for name in $options --help; do
            [[ $used == *" $name "* && $name != --to ]] || choices+=" $name"
        done
    elif _cueplayer_is_file "$job" "$place"; then
        kind=-f
    fi
    if [[ -n $kind ]]; then
        compopt -o filenames 2>/dev/null
        mapfile -t COMPREPLY < <(compgen "$kind" -- "$current")
    else
        mapfile -t COMPREPLY < <(compgen -W "$choices" -- "$current")
    fi
    # Of a word that Readline parted it puts in only what is behind the last part.
    local last=${COMP_WORDS[COMP_CWORD]}
    [[ $last != [:=] ]] || last=''
    COMPREPLY=("${COMPREPLY[@]#"${current%"$last"}"}")
}

complete -F _cueplayer cueplayer
