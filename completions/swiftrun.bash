# What bash completes after swiftrun, written by tools/completions.py.
_swiftrun() {
    local word=${COMP_WORDS[COMP_CWORD]} before=${COMP_WORDS[COMP_CWORD - 1]} each at place=0 words=''
    local -a files=()
    local command='swiftrun'
    if [[ $word == = ]]; then word=''; elif [[ $before == = ]]; then before=${COMP_WORDS[COMP_CWORD - 2]}; fi
    for ((at = 1; at < COMP_CWORD; at++)); do
        each=${COMP_WORDS[at]}
        case $each in
            --workers) if [[ ${COMP_WORDS[at + 1]} == = ]]; then ((at += 2)); else ((at++)); fi ;;
            -?*) ;;
            *) ((place++)) ;;
        esac
    done
    case $command:$before in
        swiftrun:--workers) words='1 2 3 4 5 6 7 8' ;;
        *)
            case $command:$word:$place in
                swiftrun:-*) words='--workers --quiet --help' ;;
            esac
            ;;
    esac
    if [[ $files ]]; then
        compopt -o filenames 2>/dev/null
        mapfile -t COMPREPLY < <(for each in "${files[@]}"; do compgen -f -X "!$each" -- "$word"; done; compgen -d -- "$word")
    else
        mapfile -t COMPREPLY < <(compgen -W "$words" -- "$word")
    fi
}
complete -F _swiftrun swiftrun
