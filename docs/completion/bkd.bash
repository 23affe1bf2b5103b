# Completion of bkd's words for bash: source this file, or copy it to
# /usr/share/bash-completion/completions/bkd (bench/words.py writes it from docs/commands.txt)

_bkd() {
    local word=${COMP_WORDS[COMP_CWORD]} before=${COMP_WORDS[COMP_CWORD-1]} options=
    COMPREPLY=()
    if [ "$COMP_CWORD" -eq 1 ]; then
        mapfile -t COMPREPLY < <(compgen -d -- "$word"; compgen -W 'help --help --version' -- "$word")
        compopt -o filenames 2>/dev/null
        return
    fi
    if [ "$COMP_CWORD" -eq 2 ]; then
        mapfile -t COMPREPLY < <(compgen -W 'run load explain check generate session count ranges batch export info clean' -- "$word")
        return
    fi
    case $before in
        --forks) mapfile -t COMPREPLY < <(compgen -W '0 1 2 3 4 5 6' -- "$word"); return ;;
        --cache | --columns | --docs | --seed | --wait) return ;;
    esac
    case ${COMP_WORDS[2]} in
        run | session | ranges) options='--cache --forks --wait --no-lock' ;;
        load) options='--columns --forks --wait --no-lock' ;;
        explain | count) options='--cache --wait --no-lock' ;;
        check | info | clean) options='--wait --no-lock' ;;
        generate) options='--docs --seed --forks --wait --no-lock' ;;
        batch) options='--forks --merge --wait --no-lock' ;;
        export) options='--as-ranges --wait --no-lock' ;;
    esac
    # each option stands at most once
    local used
    for used in "${COMP_WORDS[@]:3:COMP_CWORD-3}"; do
        options=" $options "
        options=${options/ $used / }
    done
    mapfile -t COMPREPLY < <(compgen -W "$options" -- "$word")
}

complete -F _bkd bkd ./bkd
