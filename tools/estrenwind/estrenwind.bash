# Completion of the command estrenwind for bash.
_estrenwind() {
    local word=${COMP_WORDS[COMP_CWORD]} before=${COMP_WORDS[COMP_CWORD - 1]} command=${COMP_WORDS[1]} options
    local commands="check sheet explain run join asm dis help"
    COMPREPLY=()
    if ((COMP_CWORD == 1)); then
        mapfile -t COMPREPLY < <(compgen -W "$commands --help --version" -- "$word")
        return
    fi
    case $command in
    sheet) options="--hex --json --help" ;;
    run) options="--decimal --trace --shard -o --quiet --help" ;;
    join | asm | dis) options="-o --help" ;;
    help | --help)
        mapfile -t COMPREPLY < <(compgen -W "$commands" -- "$word")
        return
        ;;
    *) options="--help" ;;
    esac
    # The values of these are numbers.
    [[ $before == --trace || $before == --shard ]] && return
    if [[ $word == -* ]]; then
        mapfile -t COMPREPLY < <(compgen -W "$options" -- "$word")
    else
        compopt -o filenames 2>/dev/null
        mapfile -t COMPREPLY < <(compgen -f -- "$word")
    fi
}
complete -F _estrenwind estrenwind
