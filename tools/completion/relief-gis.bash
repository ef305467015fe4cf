# Bash completion of relief-gis. Maps, options and their choices are those that its help lists.
_relief_gis() {
    local word=${COMP_WORDS[COMP_CWORD]} before=${COMP_WORDS[COMP_CWORD - 1]} map= found= help
    ((COMP_CWORD == 1)) || map=${COMP_WORDS[1]}
    help=$(COLUMNS=200 "$1" $map --help 2> /dev/null) || return
    if [[ $before == --* ]]; then
        found=$(sed -n "s/^  $before {\([a-z,]*\)}.*/\1/p" <<< "$help")
        # The value of another option is a number, a place or a file.
        [[ -z $found && $help == *"  $before "[A-Z]* ]] && return
    fi
    if [[ $found ]]; then
        found=${found//,/ }
    elif [[ $word == -* || -z $map ]]; then
        found=$(sed -n 's/^  \(-., \)\?\(--[a-z-]*\).*/\2/p' <<< "$help")
        [[ $map ]] || found+=" $(sed -n '/^  MAP$/,/^$/s/^    \([a-z]\{1,\}\).*/\1/p' <<< "$help")"
    fi
    COMPREPLY=($(compgen -W "$found" -- "$word"))
}
complete -o default -F _relief_gis relief-gis
