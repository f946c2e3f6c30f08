# Completion of the arguments of stp, stpd and sctp-relay, for bash.

_stp() {
    local word=${COMP_WORDS[COMP_CWORD]}
    COMPREPLY=()
    if [ "${1##*/}" = stp ] && [ "$COMP_CWORD" -eq 1 ]; then
        mapfile -t COMPREPLY < <(compgen -W 'run check lab lab-udp serve tell help version' -- "$word")
    elif [ "${1##*/}" = stp ] && [ "${COMP_WORDS[1]}" = tell ] && [ "$COMP_CWORD" -eq 3 ]; then
        mapfile -t COMPREPLY < <(compgen -W 'show submit activate deactivate release title users watch capture help quit stop' -- "$word")
    elif [ "${1##*/}" = stp ] && [ "${COMP_WORDS[1]} ${COMP_WORDS[3]}" = 'tell show' ] && [ "$COMP_CWORD" -eq 4 ]; then
        mapfile -t COMPREPLY < <(compgen -W 'links routes titles subsystems notices flags losses reroutings counters version capture' -- "$word")
    else
        mapfile -t COMPREPLY < <(compgen -f -X '!*.toml' -- "$word"; compgen -d -- "$word")
    fi
}

complete -o filenames -F _stp stp stpd sctp-relay
