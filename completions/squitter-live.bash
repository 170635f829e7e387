# Completion of squitter-live for bash.

_squitter_live() {
    local word=${COMP_WORDS[COMP_CWORD]} before=${COMP_WORDS[COMP_CWORD-1]}
    # bash takes the equals sign of --name=VALUE for a word of its own
    if [ "$word" = = ]; then
        word=
    elif [ "$before" = = ]; then
        before=${COMP_WORDS[COMP_CWORD-2]}
    fi
    case $before in
        --format) COMPREPLY=($(compgen -W "auto beast avr csv log" -- "$word")); return ;;
        --lat | --lon | --port | --address | --speed | --every | --limit | --reorder | --leap)
            compopt +o default 2>/dev/null; return ;;
        *[\<\>]) return ;;
    esac
    case $word in
        -*) COMPREPLY=($(compgen -W "--lat --lon --port --address --speed --every --table --limit --format --reorder --leap --arrival --help --version" -- "$word")) ;;
    esac
}

complete -o default -F _squitter_live squitter-live
