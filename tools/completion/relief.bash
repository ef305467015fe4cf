# Bash completion of relief. Maps and options are those that its help lists, and the maps of `maps`.
_relief() {
    local word=${COMP_WORDS[COMP_CWORD]} before=${COMP_WORDS[COMP_CWORD - 1]} map= found= help
    local it
    for it in "${COMP_WORDS[@]:1:COMP_CWORD - 1}"; do
        [[ $it == [a-z]* ]] && { map=$it; break; }
    done
    help=$("$1" $map -h 2> /dev/null) || return
    # The value of an option is a number, or a cell.
    [[ $before == --* && $help == *"$before <"* ]] && return
    [[ $map == maps ]] && found="fill flow accumulate basins catchments"
    [[ $map ]] || found=$(sed -n '/^Commands:/,/^$/s/^  \([a-z-]*\) .*/\1/p' <<< "$help")
    found+=" $(sed -n 's/^ *\(-., \)\?\(--[a-z-]*\).*/\2/p' <<< "$help")"
    COMPREPLY=($(compgen -W "$found" -- "$word"))
}
complete -o default -F _relief relief
