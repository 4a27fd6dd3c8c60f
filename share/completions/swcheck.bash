# Completions of swcheck for bash. Made by tools/share: change that.

# Sets COMPREPLY to the files that begin as the word at the cursor does and end so, with folders; to any files where there are none.
_swcheck_files() {
    compopt -o filenames 2> /dev/null
    mapfile -t COMPREPLY < <(compgen -f -X "!*$2" -- "$1"; [ -z "$2" ] || compgen -d -- "$1")
    [ ${#COMPREPLY[@]} != 0 ] || mapfile -t COMPREPLY < <(compgen -f -- "$1")
}

_swcheck() {
    local word=${COMP_WORDS[COMP_CWORD]} command='' last='' at=0 plain='' it options valued kinds kind
    COMPREPLY=()
    for it in "${COMP_WORDS[@]:1:COMP_CWORD-1}"; do
        if [ -z "$command" ]; then
            case $it in
                route) command=$it options='--json --hints --notes --all-faults -h --help' valued='--hints --notes' kinds=('file .toml' 'none') ;;
                decide) command=$it options='--json --hints --notes --all-faults -h --help' valued='--hints --notes' kinds=('file .toml') ;;
                check) command=$it options='--json --hints --notes --all-faults -h --help' valued='--hints --notes' kinds=('file .toml' 'file .cert') ;;
                report) command=$it options='--json --hints --notes --all-faults -h --help' valued='--hints --notes' kinds=('file .toml') ;;
                replay) command=$it options='--json --hints --notes --all-faults -h --help' valued='--hints --notes' kinds=('file .toml' 'file .schedule') ;;
                run) command=$it options='--workers --limit --schedule --summary --json --hints --notes --all-faults -h --help' valued='--workers --limit --schedule --hints --notes' kinds=('file .toml' 'file .load') ;;
                migrate) command=$it options='--hints --notes --all-faults -h --help' valued='--hints --notes' kinds=('file .toml') ;;
                explain) command=$it options='--all --json --hints --notes --all-faults -h --help' valued='--hints --notes' kinds=('file .toml') ;;
                draw) command=$it options='--flow --cycle --numbers --hints --notes --all-faults -h --help' valued='--flow --hints --notes' kinds=('file .toml') ;;
                rmap) command=$it options='--no-ack --transaction --hints --notes --all-faults -h --help' valued='--transaction --hints --notes' kinds=('file .toml' 'none' 'texts read write' 'none' 'none') ;;
                mend) command=$it options='--pairs --json --hints --notes --all-faults -h --help' valued='--hints --notes' kinds=('file .toml') ;;
                margin) command=$it options='--json --hints --notes --all-faults -h --help' valued='--hints --notes' kinds=('file .toml') ;;
                witness) command=$it options='--tries --seed --hints --notes --all-faults -h --help' valued='--tries --seed --hints --notes' kinds=('file .toml') ;;
                audit) command=$it options='--json --quiet --certificates --hints --notes --all-faults -h --help' valued='--certificates --hints --notes' kinds=('again file .toml') ;;
                init) command=$it options='--hints --notes --all-faults -h --help' valued='--hints --notes' kinds=('texts bus ring housekeeping regions limits') ;;
                help) command=$it options='-h --help -V --version' valued='' kinds=('texts route decide check report replay run migrate explain draw rmap mend margin witness audit init help') ;;
                -*) ;;
                *) return ;;
            esac
        elif [ "$it" = = ]; then
            :
        elif [ -n "$last" ]; then
            last=''
        elif [ -z "$plain" ] && [ "$it" = -- ]; then
            plain=yes
        elif [ -z "$plain" ] && [[ $it == -* ]]; then
            [[ " $valued " != *" $it "* ]] || last=$it
        else
            at=$((at + 1))
        fi
    done
    [ "$word" != = ] || word=''
    if [ -z "$command" ]; then
        kind='texts route decide check report replay run migrate explain draw rmap mend margin witness audit init help'
        options='-h --help -V --version'
    elif [ -n "$last" ]; then
        kind=none
        options=''
        case $command$last in
            route--hints) kind='texts auto never' ;;
            route--notes) kind='texts few all never' ;;
            decide--hints) kind='texts auto never' ;;
            decide--notes) kind='texts few all never' ;;
            check--hints) kind='texts auto never' ;;
            check--notes) kind='texts few all never' ;;
            report--hints) kind='texts auto never' ;;
            report--notes) kind='texts few all never' ;;
            replay--hints) kind='texts auto never' ;;
            replay--notes) kind='texts few all never' ;;
            run--schedule) kind='file .schedule' ;;
            run--hints) kind='texts auto never' ;;
            run--notes) kind='texts few all never' ;;
            migrate--hints) kind='texts auto never' ;;
            migrate--notes) kind='texts few all never' ;;
            explain--hints) kind='texts auto never' ;;
            explain--notes) kind='texts few all never' ;;
            draw--hints) kind='texts auto never' ;;
            draw--notes) kind='texts few all never' ;;
            rmap--hints) kind='texts auto never' ;;
            rmap--notes) kind='texts few all never' ;;
            mend--hints) kind='texts auto never' ;;
            mend--notes) kind='texts few all never' ;;
            margin--hints) kind='texts auto never' ;;
            margin--notes) kind='texts few all never' ;;
            witness--hints) kind='texts auto never' ;;
            witness--notes) kind='texts few all never' ;;
            audit--hints) kind='texts auto never' ;;
            audit--notes) kind='texts few all never' ;;
            init--hints) kind='texts auto never' ;;
            init--notes) kind='texts few all never' ;;
            *) ;;
        esac
    else
        it=${#kinds[@]}
        [ "$at" -lt "$it" ] || [ "$it" = 0 ] || [[ ${kinds[it - 1]} != again\ * ]] || at=$((it - 1))
        kind=${kinds[at]-none}
        kind=${kind#again }
    fi
    if [ -z "$last$plain" ] && [[ $word == -* ]]; then
        mapfile -t COMPREPLY < <(compgen -W "$options" -- "$word")
        return
    fi
    case $kind in
        texts\ *) mapfile -t COMPREPLY < <(compgen -W "${kind#* }" -- "$word") ;;
        file*) it=${kind#file}; _swcheck_files "$word" "${it# }" ;;
    esac
}

complete -F _swcheck swcheck
