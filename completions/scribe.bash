# Completes the words of scribe in bash: commands, options, and the names of files.
# To have it, source this file, or put it as "scribe" into a folder of bash-completion.

_scribe() {
    local word=${COMP_WORDS[COMP_CWORD]} words=''
    local commands='new edit window run talk table check-table try import show list history compare
        find change change-all mark marks next undo resolve strike restore heading body volume volumes
        move retable pages export proof copy bring tune'
    if ((COMP_CWORD == 1)); then
        words="$commands --help --version"
    elif [[ $word == -* ]]; then
        case ${COMP_WORDS[1]} in
            run) words='--keep-going' ;;
            edit | window) words='--by --width --lines' ;;
            talk) words='--by --short --ascii --ascii-small --unicode --width' ;;
            table | try) words='--width' ;;
            check-table) words='--display --width' ;;
            import) words='--lines --table --after --dry-run --from --format --volumes --notes --replace --report
                --continue --again --leave' ;;
            show) words='--paragraphs --print --braille --ascii --ascii-small --unicode --width' ;;
            list) words='--paragraphs --headings --width' ;;
            history) words='--by --width' ;;
            compare) words='--width' ;;
            marks) words='--open --pages --page-width --page-lines --width' ;;
            find) words='--braille --alike --pages --page-width --page-lines --width' ;;
            change) words='--nth --by --width' ;;
            change-all) words='--in --words --case --ask --dry-run --by --width' ;;
            mark) words='--nth --width' ;;
            next | undo | resolve | strike | restore | heading | body | volume | move | retable) words='--width' ;;
            volumes) words='--pages --set --width --lines' ;;
            pages) words='--width --lines --page --line --paragraph' ;;
            bring) words='--list --words --for --add --anyway --overwrite' ;;
            tune) words='--table --words --apply --width' ;;
            export) words='--width --lines --only-changed --page --volume' ;;
            proof) words='--width --lines --print-first --ascii --marks-only --speak-cells --language --overwrite' ;;
            copy) words='--overwrite' ;;
        esac
        # those that open a book
        case ${COMP_WORDS[1]} in
            check-table | try | bring) ;;
            *) words+=' --wait' ;;
        esac
        words+=' --help'
    elif ((COMP_CWORD == 4)); then
        case ${COMP_WORDS[1]} in
            volume) words='on off' ;;
            move) words='front end' ;;
        esac
    fi
    # where nothing is found here, the names of files are completed
    mapfile -t COMPREPLY < <(compgen -W "$words" -- "$word")
}
complete -o default -F _scribe scribe
