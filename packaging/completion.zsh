#compdef @NAME@
# Completions of @NAME@ for zsh.

_@IDENTIFIER@_refusals() {
    # A name that is typed becomes its number.
    local -a refusals=(
        @REFUSALS@
    )
    setopt local_options extended_glob
    local -a named=(${(M)refusals:#(#i)<->:$PREFIX*})
    if [[ $PREFIX == [[:alpha:]]* && $#named == 1 ]]; then
        compadd -U -- ${named[1]%%:*}
    else
        _describe -t refusals refusal refusals
    fi
}

_@IDENTIFIER@() {
    local context state state_descr line ret=1 schemas=0 place
    typeset -A opt_args
    local -a flags places subcommands=(
        @COMMANDS@
    ) top=(
        @TOP@
    )
    _arguments -C $top '1: :->command' '*:: :->words' && ret=0
    case $state in
        command) _describe -t commands command subcommands && ret=0 ;;
        words)
            case $line[1] in
                help)
                    _describe -t commands command subcommands
                    return
                    ;;
@CASES@
            esac
            places=('*:file:_files')
            for ((place = schemas; place > 0; place--)); do
                places=("${place}:schema:_files -g '*.fbs'" $places)
            done
            [[ $line[1] == explain ]] && places=('1:refusal:_@IDENTIFIER@_refusals')
            _arguments -s $flags $places && ret=0
            ;;
    esac
    return ret
}

if [[ $zsh_eval_context[-1] == loadautofunc ]]; then
    _@IDENTIFIER@ "$@"
else
    compdef _@IDENTIFIER@ @NAME@
fi
