# Completion of squitter for bash. man/make writes this file from the help texts.

_squitter() {
    local word=${COMP_WORDS[COMP_CWORD]} before=${COMP_WORDS[COMP_CWORD-1]} names=
    # bash takes the equals sign of --name=VALUE as a word of its own
    if [ "$word" = = ]; then
        word=
    elif [ "$before" = = ]; then
        before=${COMP_WORDS[COMP_CWORD-2]}
    fi
    case "${COMP_WORDS[1]} $before" in
        # bash completes a file after < and >
        *[\<\>]) COMPREPLY=(); return ;;
        "encode --kind") names="air ground" ;;
        "encode --parity") names="even odd" ;;
        "encode --address" | "encode --feet" | "encode --lat" | "encode --lon")
            compopt +o default 2>/dev/null ;;
        "local --lat" | "local --lon")
            compopt +o default 2>/dev/null ;;
        "pair --lat" | "pair --lon")
            compopt +o default 2>/dev/null ;;
        "check --format") names="lines csv json" ;;
        "track --format") names="lines csv json" ;;
        "track --limit" | "track --window" | "track --lat" | "track --lon")
            compopt +o default 2>/dev/null ;;
        "feed --format") names="auto beast avr csv log" ;;
        "feed --reorder" | "feed --leap")
            compopt +o default 2>/dev/null ;;
        *)
            # no command takes a file name
            compopt +o default 2>/dev/null
            case ${COMP_WORDS[1]} in
                show) names="--help" ;;
                encode) names="--kind --parity --address --feet --lat --lon --help" ;;
                local) names="--lat --lon --help" ;;
                pair) names="--lat --lon --help" ;;
                check) names="--format --help" ;;
                track) names="--format --limit --window --lat --lon --help" ;;
                feed) names="--format --reorder --leap --arrival --all --help" ;;
                help) [ "$COMP_CWORD" != 2 ] || names="show encode local pair check track feed" ;;
            esac
            if [ "$COMP_CWORD" = 1 ]; then
                names="show encode local pair check track feed help --version --help"
            fi
            ;;
    esac
    COMPREPLY=($(compgen -W "$names" -- "$word"))
}

complete -o default -F _squitter squitter
