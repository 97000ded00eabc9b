# Completion of perses for bash: source this file, or put it where bash-completion looks for it.

_perses() {
    local word=${COMP_WORDS[COMP_CWORD]} previous=${COMP_WORDS[COMP_CWORD - 1]}
    local command=${COMP_WORDS[1]} options='' by_grammar='--grammar --lexer --start --squeeze' given
    COMPREPLY=()
    if ((COMP_CWORD == 1)); then
        mapfile -t COMPREPLY < <(compgen -W 'reduce normal selftest check' -- "$word")
        return
    fi
    # bash takes `--mode=hdd` as three words.
    if [[ $word == = ]]; then
        word=
    elif [[ $previous == = ]]; then
        previous=${COMP_WORDS[COMP_CWORD - 2]}
    fi
    case $previous in
    --input | --output | --script | --grammar | --lexer | --journal | --resume)
        mapfile -t COMPREPLY < <(compgen -f -- "$word")
        compopt -o filenames
        return
        ;;
    --work)
        mapfile -t COMPREPLY < <(compgen -d -- "$word")
        compopt -o filenames
        return
        ;;
    --mode)
        case $command in
        reduce | check) mapfile -t COMPREPLY < <(compgen -W 'perses hdd lines' -- "$word") ;;
        *) mapfile -t COMPREPLY < <(compgen -W 'perses hdd' -- "$word") ;;
        esac
        return
        ;;
    --start | --jobs | --keep | --protect | --protect-text | --only | --number | --size)
        return
        ;;
    esac
    # In mode `lines` nothing is said of a grammar.
    [[ ${COMP_WORDS[*]} =~ \ --mode\ (=\ )?lines( |$) ]] && by_grammar=''
    case $command in
    reduce)
        options="--input --output --script --mode --jobs --journal --resume --work --keep --protect --protect-text --only --respell $by_grammar"
        [[ $by_grammar ]] || options=${options/ --respell/}
        ;;
    normal) options='--grammar --lexer --start' ;;
    selftest) options='--number --size --mode' ;;
    check) options="--input --output --journal --mode --keep $by_grammar" ;;
    esac
    # Each option once, but those that may be there several times.
    for given in "${COMP_WORDS[@]:2}"; do
        if [[ $given == --* && $given != --keep && $given != --protect* && $given != "$word" ]]; then
            options=" $options "
            options=${options/ $given / }
        fi
    done
    mapfile -t COMPREPLY < <(compgen -W "$options" -- "$word")
}

complete -F _perses perses
