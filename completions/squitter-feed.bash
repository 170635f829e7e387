# Completion of squitter-feed for bash.

_squitter_feed() {
    local word=${COMP_WORDS[COMP_CWORD]} before=${COMP_WORDS[COMP_CWORD-1]}
    # bash takes the equals sign of --name=VALUE for a word of its own
    if [ "$word" = = ]; then
        word=
    elif [ "$before" = = ]; then
        before=${COMP_WORDS[COMP_CWORD-2]}
    fi
    case $before in
        --format) COMPREPLY=($(compgen -W "auto beast avr csv log" -- "$word")); return ;;
        --reorder | --leap) compopt +o default 2>/dev/null; return ;;
        # a file, which bash completes where this answers nothing
        --save | *[\<\>]) return ;;
    esac
    case $word in
        -*) COMPREPLY=($(compgen -W "--format --reorder --leap --arrival --all --save --help --version" -- "$word")) ;;
    esac
}

complete -o default -F _squitter_feed squitter-feed
