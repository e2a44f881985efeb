# Completion for bash of the words of cueplayer-night: the folder, commands, the options of live.
# shellcheck shell=bash

# dev/pages writes the options of a night from the program's table.
_cueplayer_night_options="--to --cid --priority --base --interface --any-route --name --ttl"
_cueplayer_night_options+=" --start --end-with-input"
_cueplayer_night_flags="--any-route --end-with-input"
# end of the options of a night

# Fills COMPREPLY with what may stand where the cursor is.
_cueplayer_night() {
    local current=${COMP_WORDS[COMP_CWORD]} job=${COMP_WORDS[2]-} choices='' kind='' name
    local before=${COMP_WORDS[COMP_CWORD - 1]}
    if ((COMP_CWORD == 1)); then
        kind=-d
        if [[ $current == -* ]]; then choices=--help kind=''; fi
    elif ((COMP_CWORD == 2)); then
        choices="start make go back goto sub group master where end leave stop halt update status watch"
    elif ((COMP_CWORD == 3)) && [[ $job == update ]]; then
        kind=-f
    elif ((COMP_CWORD == 3)) && [[ $job == status ]]; then
        choices=--json
    elif [[ $job != start && $job != make ]]; then
        :
    elif [[ $before == --if-refused ]]; then
        choices=begin
    elif [[ $before == --to ]]; then
        choices=239.255.0.0
    elif [[ $before == --interface ]]; then
        for name in /sys/class/net/*; do choices+=" ${name##*/}"; done
    elif [[ $before == --* && " $_cueplayer_night_flags --background " != *" $before "* ]]; then
        :
    elif [[ $current == -* ]]; then
        for name in $_cueplayer_night_options --background --if-refused; do
            [[ $name != --to && " ${COMP_WORDS[*]:3:COMP_CWORD-3} " == *" $name "* ]] ||
                choices+=" $name"
        done
        [[ $job == start ]] || choices=${choices% --background --if-refused}
    elif ((COMP_CWORD == 3)); then
        kind=-f
    fi
    if [[ -n $kind ]]; then
        compopt -o filenames 2>/dev/null
        mapfile -t COMPREPLY < <(compgen "$kind" -- "$current")
    else
        mapfile -t COMPREPLY < <(compgen -W "$choices" -- "$current")
    fi
}

complete -F _cueplayer_night cueplayer-night
