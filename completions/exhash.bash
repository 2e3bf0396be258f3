# Completions of the commands, options and paths of exhash, for bash: `source completions/exhash.bash`.

_exhash() {
    local word=${COMP_WORDS[COMP_CWORD]} last=${COMP_WORDS[COMP_CWORD - 1]} options=--help
    COMPREPLY=()
    if ((COMP_CWORD == 1)); then
        mapfile -t COMPREPLY < <(compgen -W 'create get put del swap backup import export compact stats salvage check dump pairs load convert serve storm version manual help --help --version' -- "$word")
        return
    fi
    case ${COMP_WORDS[1]} in
        serve) options='--open --save --help' ;;
        storm) options='--callers --calls --cap --wards --copies --help' ;;
        check | dump) ;;
        backup) options='--wait --help' ;;
        version) [[ $word == -* ]] || return ;;
        pairs | create | compact | import)
            options='--cap --wards --keyer --help'
            [[ ${COMP_WORDS[1]} == pairs ]] || options+=' --wait'
            [[ ${COMP_WORDS[1]} != import ]] || options+=' --format --header --key --value --hex --atomic --rejects --create'
            case $last in
                --cap | --wards | --wait | --key | --value) return ;;
                --format)
                    mapfile -t COMPREPLY < <(compgen -W 'words tsv jsonl csv' -- "$word")
                    return
                    ;;
                --keyer)
                    mapfile -t COMPREPLY < <(compgen -W 'sha plain' -- "$word")
                    return
                    ;;
            esac
            ;;
        export | salvage)
            options='--format --hex --bare --help'
            [[ ${COMP_WORDS[1]} == salvage ]] || options+=' --wait'
            case $last in
                --wait) return ;;
                --format)
                    mapfile -t COMPREPLY < <(compgen -W 'words tsv jsonl csv' -- "$word")
                    return
                    ;;
            esac
            ;;
        stats)
            options='--json --wait --help'
            [[ $last != --wait ]] || return
            ;;
        convert)
            options='--version --help'
            if [[ $last == --version ]]; then
                mapfile -t COMPREPLY < <(compgen -W '2 3' -- "$word")
                return
            fi
            ;;
        load) options='--long --into --help' ;;
        get) options='--from --hex --raw --wait --help' ;;
        put) options='--new --replace --hex --raw --wait --help' ;;
        del) options='--from --hex --wait --help' ;;
        swap) options='--hex --wait --help' ;;
        help | manual)
            mapfile -t COMPREPLY < <(compgen -W 'create get put del swap backup import export compact stats salvage check dump pairs load convert serve storm version manual' -- "$word")
            return
            ;;
        *) return ;;
    esac
    case ${COMP_WORDS[1]} in
        # Keys, values and seconds are no paths.
        get | put | del | swap) [[ $word == -* ]] || ((COMP_CWORD == 2)) || return ;;
        backup) [[ $last != --wait ]] || return ;;
    esac
    if [[ $word == -* ]]; then
        mapfile -t COMPREPLY < <(compgen -W "$options" -- "$word")
    elif [[ ${COMP_WORDS[1]} != storm && (${COMP_WORDS[1]} != serve || $last == --open || $last == --save) ]]; then
        mapfile -t COMPREPLY < <(compgen -f -- "$word")
    fi
}

complete -o filenames -F _exhash exhash exh_cli
