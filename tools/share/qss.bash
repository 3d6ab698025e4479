# Completion of qss and its tools for bash. `make install` puts it where bash-completion looks for it.
_qss() {
    local word=${COMP_WORDS[COMP_CWORD]} before=${COMP_WORDS[COMP_CWORD - 1]}
    case $before in
    --rule) COMPREPLY=($(compgen -W "floor near inward" -- "$word")) && return ;;
    esac
    if [ "$COMP_CWORD" = 1 ]; then
        COMPREPLY=($(compgen -W "run devs run2 print propose certify upgrade check compare gen" -- "$word"))
    elif [ "${word#-}" != "$word" ]; then
        COMPREPLY=($(compgen -W "--rule --only --relative" -- "$word"))
    elif [ "${COMP_WORDS[1]}" = compare ] && [ "$COMP_CWORD" -gt 3 ]; then
        COMPREPLY=($(compgen -W "first second" -- "$word") $(compgen -f -- "$word"))
    else
        COMPREPLY=($(compgen -f -- "$word"))
    fi
}

_qss_tool() {
    local word=${COMP_WORDS[COMP_CWORD]}
    case ${COMP_WORDS[COMP_CWORD - 1]} in
    --rule | --over-rule) COMPREPLY=($(compgen -W "floor near inward" -- "$word")) && return ;;
    --order) COMPREPLY=($(compgen -W "1 2" -- "$word")) && return ;;
    qss-tools | */qss-tools)
        COMPREPLY=($(compgen -W "$("$1" 2>/dev/null | sed -nE 's/^(qss-)?([a-z][a-z-]*)  .*/\2/p')" -- "$word"))
        [ "${word#-}" = "$word" ] && return
        ;;
    --unit) COMPREPLY=($(compgen -W "ns us ms s min h d" -- "$word")) && return ;;
    esac
    if [ "${word#-}" != "$word" ]; then
        COMPREPLY=($(compgen -W "$("$1" --help 2>/dev/null | grep -oE -- '--[a-z][a-z-]*' | sort -u)" -- "$word"))
    else
        COMPREPLY=($(compgen -f -- "$word"))
    fi
}

complete -o filenames -F _qss qss
for _qss_name in $(compgen -c | grep -E '^qss-[a-z]+$' | sort -u) rows-to-trace solution-to-trace; do
    complete -o filenames -F _qss_tool "$_qss_name"
done
unset _qss_name
