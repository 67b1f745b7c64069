# Completions of aggen for bash. tools/completions makes this file from the program's help.
# shellcheck shell=bash
_aggen() {
    local word=${COMP_WORDS[COMP_CWORD]} command='' value='' kind='' place=0 it
    COMPREPLY=()
    # the command, the number of its arguments so far, and what the option before the word takes
    for ((it = 1; it < COMP_CWORD; it++)); do
        if [[ ${COMP_WORDS[it]} = '=' ]]; then
            continue
        elif [[ -n $value ]]; then
            value=''
        elif [[ ${COMP_WORDS[it]} = -?* ]]; then
            case $command${COMP_WORDS[it]} in
                --color) value='words auto always never' ;;
                run--color) value='words auto always never' ;;
                run-o) value='file' ;;
                run--output) value='file' ;;
                run--out-dir) value='folder' ;;
                run--work) value='folder' ;;
                eval--color) value='words auto always never' ;;
                eval-o) value='file' ;;
                eval--output) value='file' ;;
                eval--work) value='folder' ;;
                value--color) value='words auto always never' ;;
                check--color) value='words auto always never' ;;
                check--most) value='none' ;;
                plan--color) value='words auto always never' ;;
                plan--most) value='none' ;;
                why--color) value='words auto always never' ;;
                code--color) value='words auto always never' ;;
                parse--color) value='words auto always never' ;;
                show--color) value='words auto always never' ;;
                show--depth) value='none' ;;
                show--node) value='none' ;;
                show--only) value='none' ;;
                show--width) value='none' ;;
                explain--color) value='words auto always never' ;;
                explain--node) value='none' ;;
                explain--width) value='none' ;;
                explain--sentence) value='file' ;;
                explain--at) value='none' ;;
                upgrade--color) value='words auto always never' ;;
            esac
        elif [[ -z $command ]]; then
            command=${COMP_WORDS[it]}
        else
            place=$((place + 1))
        fi
    done
    [[ $word != '=' ]] || word=''
    if [[ -n $value ]]; then
        kind=$value
    elif [[ $word = -* ]]; then
        case $command in
            '') kind='words --color -q --quiet -h --help -V --version' ;;
            'run') kind='words --color -o --output --out-dir -q --quiet --work -h --help' ;;
            'eval') kind='words --color -o --output -q --quiet --work -h --help' ;;
            'value') kind='words --color -q --quiet -h --help' ;;
            'check') kind='words --all --color --most -q --quiet --json -h --help' ;;
            'plan') kind='words --all --color --most -q --quiet --json -h --help' ;;
            'why') kind='words --color -q --quiet -h --help' ;;
            'code') kind='words --color -q --quiet -h --help' ;;
            'parse') kind='words --color -q --quiet -h --help' ;;
            'show') kind='words --color --depth --node -q --quiet --only --width --json -h --help' ;;
            'explain') kind='words --color --node -q --quiet --width --sentence --at --errors -h --help' ;;
            'upgrade') kind='words --color -q --quiet -h --help' ;;
        esac
    else
        case $command/$place in
            /*) kind='words run eval value check plan why code parse show explain upgrade help' ;;
            run/0) kind='grammar' ;;
            run/*) kind='file' ;;
            eval/0) kind='grammar' ;;
            eval/1) kind='file' ;;
            value/0) kind='none' ;;
            check/0) kind='grammar' ;;
            plan/0) kind='grammar' ;;
            why/0) kind='grammar' ;;
            why/1) kind='none' ;;
            code/0) kind='grammar' ;;
            parse/0) kind='grammar' ;;
            parse/1) kind='file' ;;
            parse/2) kind='file' ;;
            show/0) kind='grammar' ;;
            show/1) kind='file' ;;
            explain/0) kind='grammar' ;;
            explain/1) kind='file' ;;
            explain/*) kind='none' ;;
            upgrade/0) kind='grammar' ;;
            upgrade/1) kind='file' ;;
            upgrade/2) kind='file' ;;
            help/0) kind='words run eval value check plan why code parse show explain upgrade help' ;;
        esac
    fi
    case $kind in
        words*)
            mapfile -t COMPREPLY < <(compgen -W "${kind#words}" -- "$word")
            compopt +o default
            ;;
        grammar)
            mapfile -t COMPREPLY < <(compgen -f -X '!*.ag' -- "$word"; compgen -d -- "$word")
            compopt -o filenames
            ;;
        folder)
            mapfile -t COMPREPLY < <(compgen -d -- "$word")
            compopt -o filenames
            ;;
        file) ;;
        *) compopt +o default ;;
    esac
}
complete -o default -F _aggen aggen
