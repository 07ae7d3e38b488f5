# Completes what is typed after `tpnet` in bash: commands, their options, and files; and after `tpnet-assemble` and its siblings: their
# options, the shapes of `tpnet-topology`, and files. What there is comes from the `--help` of each. For one shell:
# `. examples/completions/tpnet.bash`.

# The commands, one a line.
_tpnet_commands() {
    "$1" --help 2>/dev/null | sed -n '/^Commands:/,/^$/s/^  \([a-z]\{1,\}\) .*/\1/p'
}

# The options of a command, one a line.
_tpnet_options() {
    "$@" --help 2>/dev/null | sed -n '/^Options:/,/^$/s/^ \{2,6\}\(-[a-zA-Z], \)\{0,1\}\(--[a-z-]\{1,\}\).*/\2/p'
}

_tpnet() {
    local word=${COMP_WORDS[COMP_CWORD]} program=${COMP_WORDS[0]} stream= each
    COMPREPLY=()
    for each in "${COMP_WORDS[@]}"; do
        [ "$each" = --stream ] && stream=--stream
    done
    if [ "$COMP_CWORD" -eq 1 ]; then
        COMPREPLY=($(compgen -W "$(_tpnet_commands "$program")" -- "$word"))
    elif [ "${word#-}" != "$word" ] && [ "${word#--*=}" = "$word" ]; then
        [ "${COMP_WORDS[1]}" = run ] || stream=
        COMPREPLY=($(compgen -W "$(_tpnet_options "$program" "${COMP_WORDS[1]}" $stream)" -- "$word"))
    fi
}

# The options of a sibling that its usage names, one a line.
_tpnet_tool_options() {
    "$1" --help 2>/dev/null | sed -n '/^usage: /,/^$/p' | grep -o -- '--[a-z-]\{1,\}'
    echo --help
}

# The shapes of a network, one a line.
_tpnet_shapes() {
    "$1" --help 2>/dev/null | sed -n 's/^ \{4\}\([a-z]\{1,\}\) [A-Z].*/\1/p'
}

_tpnet_tool() {
    local word=${COMP_WORDS[COMP_CWORD]} program=${COMP_WORDS[0]}
    COMPREPLY=()
    if [ "${word#-}" != "$word" ]; then
        COMPREPLY=($(compgen -W "$(_tpnet_tool_options "$program")" -- "$word"))
    elif [ "$COMP_CWORD" -eq 1 ] && [ "${program##*/}" = tpnet-topology ]; then
        COMPREPLY=($(compgen -W "$(_tpnet_shapes "$program")" -- "$word"))
    fi
}

complete -o default -F _tpnet tpnet
complete -o default -F _tpnet_tool tpnet-assemble tpnet-list-image tpnet-make-image tpnet-plot-run tpnet-topology
