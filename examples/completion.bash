# What bash completes behind `lert` and its tools. Source it, or put it into
# /usr/share/bash-completion/completions/lert.
_lert() {
    local word=${COMP_WORDS[COMP_CWORD]} settings
    settings='--threshold --bins --ratio --base --levels --cone-bits --room --packet'
    if [ "$COMP_CWORD" -eq 1 ]; then
        mapfile -t COMPREPLY < <(compgen -W 'run recover gen drill --help --version' -- "$word")
    elif [[ $word == -* ]]; then
        case ${COMP_WORDS[1]} in
        run) settings+=' --workers' ;;
        drill) settings+=' --workers --seed --events' ;;
        gen) settings='--seed --events' ;;
        esac
        mapfile -t COMPREPLY < <(compgen -W "$settings" -- "$word")
    else
        mapfile -t COMPREPLY < <(compgen -f -- "$word")
    fi
}
# A tool has the options of which its help tells.
_lert_tool() {
    local word=${COMP_WORDS[COMP_CWORD]} words=
    if [[ $word == -* ]]; then
        words=$("${COMP_WORDS[0]}" --help 2>/dev/null | grep -o -- '--[a-z][a-z-]*' | sort -u)
    elif [[ ${COMP_WORDS[0]} == *keys && $COMP_CWORD -eq 1 ]]; then
        words='pack unpack label'
    fi
    mapfile -t COMPREPLY < <(compgen -W "$words" -- "$word"; [[ -n $words ]] || compgen -f -- "$word")
}
complete -o filenames -F _lert lert ./lert
complete -o filenames -F _lert_tool {lert-,tools/}{keys,live,fit,report,watch,picture,sound,journal}
