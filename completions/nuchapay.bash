# What bash completes after nuchapay, written by tools/completions.py.
_nuchapay() {
    local word=${COMP_WORDS[COMP_CWORD]} before=${COMP_WORDS[COMP_CWORD - 1]} each at place=0 words=''
    local -a files=()
    local command=''
    if [[ $word == = ]]; then word=''; elif [[ $before == = ]]; then before=${COMP_WORDS[COMP_CWORD - 2]}; fi
    for ((at = 1; at < COMP_CWORD; at++)); do
        each=${COMP_WORDS[at]}
        case $each in
            --language | --workers | --format | --outcome | --schedule | --limit | --from | --color | --expect | --save) if [[ ${COMP_WORDS[at + 1]} == = ]]; then ((at += 2)); else ((at++)); fi ;;
            --diff) ((at += 2)) ;;
            -?*) ;;
            *) if [[ -z $command ]]; then command=$each; else ((place++)); fi ;;
        esac
    done
    case $command:$before in
        run:--language) words='script swift' ;;
        run:--workers) words='1 2 3 4 5 6 7 8' ;;
        run:--format) words='text json' ;;
        run:--outcome) words='' ;;
        run:--schedule) words='' ;;
        run:--limit) words='' ;;
        run:--from) files=('*') ;;
        why:--language) words='script swift' ;;
        why:--workers) words='1 2 3 4 5 6 7 8' ;;
        why:--outcome) words='' ;;
        why:--schedule) words='' ;;
        why:--limit) words='' ;;
        why:--from) files=('*') ;;
        check:--language) words='script swift' ;;
        check:--color) words='always never' ;;
        check:--format) words='text json' ;;
        print:--language) words='script swift' ;;
        show:--language) words='script swift' ;;
        show:--workers) words='1 2 3 4 5 6 7 8' ;;
        show:--format) words='svg html trace' ;;
        show:--outcome) words='' ;;
        show:--schedule) words='' ;;
        show:--limit) words='' ;;
        show:--from) files=('*') ;;
        swift:--language) words='script swift' ;;
        explore:--language) words='script swift' ;;
        explore:--limit) words='' ;;
        explore:--schedule) words='' ;;
        explore:--diff) words='' ;;
        explore:--expect) words='' ;;
        explore:--format) words='text json html' ;;
        explore:--save) files=('*') ;;
        explore:--from) files=('*') ;;
        *)
            case $command:$word:$place in
                :-*) words='--version --help' ;;
                :*:0) words='run why check explain print show swift explore help' ;;
                run:-*) words='--language --workers --quiet --values --format --outcome --schedule --broken --limit --from --help' ;;
                run:*:0) files=('*.actors' '*.swift') ;;
                why:-*) words='--language --workers --outcome --schedule --broken --limit --from --help' ;;
                why:*:0) files=('*.actors' '*.swift') ;;
                check:-*) words='--language --color --format --help' ;;
                check:*:0) files=('*.actors' '*.swift') ;;
                explain:-*) words='--help' ;;
                explain:*:0) words='S1 S2 S3 S4 S5 S6 S7 S8 S9 S10 S11 S12 S13 S14 N1 N2 N3 N4 N5 thrown cancelled invariant overflow steps tasks isolation empty depth turns' ;;
                print:-*) words='--language --pretty --help' ;;
                print:*:0) files=('*.actors' '*.swift') ;;
                show:-*) words='--language --workers --format --outcome --schedule --broken --limit --from --help' ;;
                show:*:0) files=('*.actors' '*.swift') ;;
                swift:-*) words='--language --plain --help' ;;
                swift:*:0) files=('*.actors' '*.swift') ;;
                explore:-*) words='--language --limit --broken --schedule --diff --expect --no-fault --format --save --from --help' ;;
                explore:*:0) files=('*.actors' '*.swift') ;;
                help:-*) words='--help' ;;
                help:*:0) words='run why check explain print show swift explore help' ;;
            esac
            ;;
    esac
    if [[ $files ]]; then
        compopt -o filenames 2>/dev/null
        mapfile -t COMPREPLY < <(for each in "${files[@]}"; do compgen -f -X "!$each" -- "$word"; done; compgen -d -- "$word")
    else
        mapfile -t COMPREPLY < <(compgen -W "$words" -- "$word")
    fi
}
complete -F _nuchapay nuchapay
