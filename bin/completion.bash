# Completes the words of ets_tool.
_ets_tool() {
    local word=${COMP_WORDS[COMP_CWORD]} before=${COMP_WORDS[COMP_CWORD - 1]}
    COMPREPLY=()
    # bash takes --kind=set for three words.
    if [ "$word" = = ]; then
        word=
    elif [ "$before" = = ] && [ "$COMP_CWORD" -gt 2 ]; then
        before=${COMP_WORDS[COMP_CWORD - 2]}
    fi
    if [ "$COMP_CWORD" = 1 ]; then
        mapfile -t COMPREPLY < <(compgen -W 'run test compile verify script shell scan explain help --help --version' -- "$word")
    elif [ "$COMP_CWORD" = 2 ] && [ "$before" = help ]; then
        mapfile -t COMPREPLY < <(compgen -W 'run test compile verify script shell scan explain help' -- "$word")
    elif [ "${COMP_WORDS[1]}" = scan ] && [ "$before" = --kind ]; then
        mapfile -t COMPREPLY < <(compgen -W 'set bag duplicate_bag' -- "$word")
    elif [ "$before" = --keypos ] || [ "$before" = --parts ] || [ "$before" = --workers ]; then
        # A number.
        return
    elif [ "${COMP_WORDS[1]}" = scan ]; then
        mapfile -t COMPREPLY < <(compgen -W '--kind --keypos --parts --workers --why --help' -- "$word")
    elif [ "${COMP_WORDS[1]}" = run ] || [ "${COMP_WORDS[1]}" = test ]; then
        mapfile -t COMPREPLY < <(compgen -W '--strings --why --help' -- "$word")
    elif [ "${COMP_WORDS[1]}" = shell ]; then
        mapfile -t COMPREPLY < <(compgen -W '--prompt --why --help' -- "$word")
    elif [ "${COMP_WORDS[1]}" = explain ]; then
        mapfile -t COMPREPLY < <(compgen -W '--keypos --why --help' -- "$word")
    else
        mapfile -t COMPREPLY < <(compgen -W '--why --help' -- "$word")
    fi
}
complete -F _ets_tool ets_tool
