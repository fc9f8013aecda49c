# Completes the words of braildesk in bash: commands, options, and the names of files.
# To have it, source this file, or put it as "braildesk" into a folder of bash-completion.

_braildesk() {
    local word=${COMP_WORDS[COMP_CWORD]} words=''
    if ((COMP_CWORD == 1)); then
        words='new session export translate check --help'
    elif [[ $word == -* ]]; then
        case ${COMP_WORDS[1]} in
            export) words='--width --lines' ;;
        esac
        words+=' --help'
    elif [[ ${COMP_WORDS[1]} == translate ]]; then
        words='@en'
    fi
    # where nothing is found here, the names of files are completed
    mapfile -t COMPREPLY < <(compgen -W "$words" -- "$word")
}
complete -o default -F _braildesk braildesk
