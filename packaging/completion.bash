# Completions of @NAME@ for bash, over the package bash-completion.
_@IDENTIFIER@_refusals() {
    # A name becomes its number; where there are several, each is shown with its name.
    local refusal
    for refusal in @REFUSALS@; do
        if [[ $refusal == "$cur"* || ${refusal,,} == *" ${cur,,}"* ]]; then
            COMPREPLY+=("$refusal")
        fi
    done
    if ((${#COMPREPLY[@]} == 1)); then
        COMPREPLY=("${COMPREPLY[0]%% *}")
    fi
}

_@IDENTIFIER@() {
    local cur prev words cword split= command= place=0 schemas=0 candidates= i
    declare -F _init_completion > /dev/null || return
    _init_completion -s || return
    case $prev in
        @DIRECTED@)
            _filedir -d
            return
            ;;
@VALUES@
        @VALUED@) return ;;
    esac
    for ((i = 1; i < cword; i++)); do
        case ${words[i]} in
            @VALUED@) ((i++)) ;;
            -?*) ;;
            *) if [[ $command ]]; then ((place++)); else command=${words[i]}; fi ;;
        esac
    done
    case $command in
@CASES@
    esac
    if [[ $cur == -* || -z $command || $command == help ]]; then
        mapfile -t COMPREPLY < <(compgen -W "$candidates" -- "$cur")
    elif [[ $command == explain ]]; then
        _@IDENTIFIER@_refusals
    elif ((place < schemas)); then
        _filedir fbs
    else
        _filedir
    fi
}
complete -o default -F _@IDENTIFIER@ @NAME@
