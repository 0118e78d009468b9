# Completions of @NAME@ for fish.

# Whether a schema is next on the line of a command whose first `count` paths are schemas.
function __@IDENTIFIER@_is_schema --argument-names command count
    set -l words (commandline -opc)[2..]
    set -l paths
    while set -q words[1]
        if contains -- $words[1] @VALUED@
            set -e words[1]
        else if not string match -q -- '-?*' $words[1]
            set -a paths $words[1]
        end
        set -e words[1]
    end
    test "$paths[1]" = $command; and test (count $paths) -le $count
end

# Files *.fbs and directories, or all files where there are none.
function __@IDENTIFIER@_schemas
    set -l files (__fish_complete_path (commandline -ct))
    set -l schemas (string match -r '^[^\t]*(?:/|\.fbs)(?:\t.*)?$' -- $files)
    set -q schemas[1]; and set files $schemas
    string join -- \n $files
end

function __@IDENTIFIER@_refusals
@REFUSALS@
end

@LINES@
complete -c @NAME@ -n '__fish_seen_subcommand_from explain' -f -a '(__@IDENTIFIER@_refusals)'
complete -c @NAME@ -n '__fish_seen_subcommand_from help' -f -a '@COMMANDS@'
