# Completes the command line of dalictl in bash: `. completions/dalictl.bash`. Written by completions/make.

_dalictl() {
    local word=${COMP_WORDS[COMP_CWORD]} before=${COMP_WORDS[COMP_CWORD - 1]} options='' files='' others=''
    if ((COMP_CWORD == 1)); then
        mapfile -t COMPREPLY < <(compgen -W 'check explain notes list code step play look run probe listen blink ask live frame event help --help --version' -- "$word")
        return
    fi
    # `=` is a word of its own: `--bind=FILE` is three.
    if [[ $word == = ]]; then
        word=''
    elif [[ $before == = ]]; then
        before=${COMP_WORDS[COMP_CWORD - 2]}
    fi
    case ${COMP_WORDS[1]} in
        check) options='--bind --code --json --help' files='--bind' others='' ;;
        explain) options='--bind --json --help' files='--bind' others='' ;;
        notes) options='--bind --deny --json --help' files='--bind' others='--deny' ;;
        list) options='--bind --json --help' files='--bind' others='' ;;
        code) options='--bind --help' files='--bind' others='' ;;
        step) options='--bind --scans --every --help' files='--bind' others='--scans --every' ;;
        play) options='--bind --keep --limit --names --brief --expect --watch --help' files='--bind --keep' others='--limit --expect --watch' ;;
        look) options='--bind --keep --text --out --bus --from --to --watch --help' files='--bind --keep --out' others='--bus --from --to --watch' ;;
        run) options='--bind --keep --limit --workers --help' files='--bind --keep' others='--limit --workers' ;;
        probe) options='--line --patience --bus --record --json --help' files='--line --record' others='--patience --bus' ;;
        listen) options='--line --patience --bind --bus --record --for --stop --help' files='--line --bind --record --stop' others='--patience --bus --for' ;;
        blink) options='--line --patience --help' files='--line' others='--patience' ;;
        ask) options='--line --patience --help' files='--line' others='--patience' ;;
        live) options='--line --period --for --stop --limit --workers --patience --end-on-down --stay --log --log-size --record --status --json --keep --help' files='--stop --log --record --status --keep' others='--line --period --for --limit --workers --patience --log-size' ;;
        frame) options='--help' files='' others='' ;;
        event) options='--help' files='' others='' ;;
        *) return ;;
    esac
    if [[ " $others " == *" $before "* ]]; then
        COMPREPLY=()
    elif [[ $word == -* && " $files " != *" $before "* ]]; then
        mapfile -t COMPREPLY < <(compgen -W "$options" -- "$word")
    else
        compopt -o filenames 2>/dev/null
        mapfile -t COMPREPLY < <(compgen -f -- "$word")
    fi
}

complete -F _dalictl dalictl
