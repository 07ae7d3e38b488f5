# Completes what is typed after `tpnet` in fish: commands, their options with what they are for, and files; and after `tpnet-assemble` and
# its siblings: their options, the shapes of `tpnet-topology`, and files. What there is comes from the `--help` of each.

# The commands, one a line.
function __tpnet_commands
    tpnet --help 2>/dev/null | sed -n '/^Commands:/,/^$/s/^  \([a-z]\{1,\}\)  *\(.*\)/\1\t\2/p'
end

# The options of the command that is typed, one a line.
function __tpnet_options
    set -l words (commandline -opc)
    set -l asked $words[2]
    if test "$asked" = run; and contains -- --stream $words
        set -a asked --stream
    end
    tpnet $asked --help 2>/dev/null |
        sed -n '/^Options:/,/^$/s/^ \{2,6\}\(-[a-zA-Z], \)\{0,1\}\(--[a-z-]\{1,\}\)\( <[^>]*>\)\{0,1\}  *\(.*\)/\2\t\4/p'
end

complete -c tpnet -n 'test (count (commandline -opc)) -eq 1' -f -a '(__tpnet_commands)'
complete -c tpnet -n 'test (count (commandline -opc)) -gt 1; and string match -q -- "-*" (commandline -ct)' -a '(__tpnet_options)'

# The options of a sibling that its usage names, one a line.
function __tpnet_tool_options
    set -l words (commandline -opc)
    $words[1] --help 2>/dev/null | sed -n '/^usage: /,/^$/p' | grep -o -- '--[a-z-]\{1,\}'
    echo --help
end

# The shapes of a network with what they are, one a line.
function __tpnet_shapes
    tpnet-topology --help 2>/dev/null | sed -n 's/^ \{4\}\([a-z]\{1,\}\) [A-Z ]*\(.*\)/\1\t\2/p'
end

for tool in tpnet-assemble tpnet-list-image tpnet-make-image tpnet-plot-run tpnet-topology
    complete -c $tool -n 'string match -q -- "-*" (commandline -ct)' -a '(__tpnet_tool_options)'
end
complete -c tpnet-topology -n 'test (count (commandline -opc)) -eq 1' -f -a '(__tpnet_shapes)'
