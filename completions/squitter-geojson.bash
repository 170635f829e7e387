# Completion of squitter-geojson for bash.

_squitter_geojson() {
    local word=${COMP_WORDS[COMP_CWORD]} before=${COMP_WORDS[COMP_CWORD-1]}
    # bash takes the equals sign of --name=VALUE for a word of its own
    if [ "$word" = = ]; then
        word=
    elif [ "$before" = = ]; then
        before=${COMP_WORDS[COMP_CWORD-2]}
    fi
    case $before in
        --silence|--lat|--lon|--range|--speed) compopt +o default 2>/dev/null; return ;;
    esac
    # what is no option is a file, which bash completes where this answers nothing
    case $word in
        -*) COMPREPLY=($(compgen -W "--kml --silence --lat --lon --range --speed --help --version" -- "$word")) ;;
    esac
}

complete -o default -F _squitter_geojson squitter-geojson
