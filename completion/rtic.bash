# Completion of rtic and rticx for bash: the commands, and then in each place files of its kind (README.md beside this file).

# The names that begin with a word. Those with the ending and folders come first. Where the ending is that of
# applications others come only if there are none of these.
_rtic_files() {
    local word=$1 ending=$2 name
    local -a usual=() folders=() others=()
    while IFS= read -r name; do
        if [[ -d ${name/#~\//$HOME/} ]]; then
            folders+=("$name")
        elif [[ $name == *."$ending" ]]; then
            usual+=("$name")
        else
            others+=("$name")
        fi
    done < <(compgen -f -- "$word" | sort)
    COMPREPLY=("${usual[@]}" "${folders[@]}")
    if [[ $ending != rtic || ${#COMPREPLY[@]} -eq 0 ]]; then
        COMPREPLY+=("${others[@]}")
    fi
}

_rtic() {
    local word=${COMP_WORDS[COMP_CWORD]} program=${COMP_WORDS[0]##*/}
    local -a endings=()
    COMPREPLY=()
    if [[ $COMP_CWORD -eq 1 ]]; then
        local words='run check fmt build audit live soak demo deepest verify times pair'
        [[ $program != rticx ]] || words='run audit live native why cycles bounds respond'
        [[ $word != -* ]] || words='-h --help --version'
        mapfile -t COMPREPLY < <(compgen -W "$words" -- "$word")
        return
    fi
    case $program:${COMP_WORDS[1]} in
    rticx:run | rticx:live) endings=(rtic board script) ;;
    rticx:audit) endings=(rtic board trace) ;;
    rticx:native) endings=(rtic board) ;;
    rticx:why) endings=(listing) ;;
    rticx:bounds) endings=(listing limits) ;;
    rticx:cycles) endings=(rtic) ;;
    rticx:respond) endings=(rtic limits) ;;
    rticx:*) ;;
    *:check | *:fmt | *:build | *:soak | *:deepest) endings=(rtic) ;;
    *:run | *:live) endings=(rtic script) ;;
    *:audit) endings=(rtic trace) ;;
    *:times) endings=(rtic limits) ;;
    *:verify) endings=(listing) ;;
    *:pair) endings=(rtic rtic script) ;;
    esac
    local ending=${endings[COMP_CWORD - 2]}
    [[ -z $ending ]] || _rtic_files "$word" "$ending"
}

complete -o nosort -o filenames -F _rtic rtic rticx
