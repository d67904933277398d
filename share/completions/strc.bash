# Completion of strc for bash: its options, and files.
_strc() {
    local current=${COMP_WORDS[COMP_CWORD]} previous=${COMP_WORDS[COMP_CWORD - 1]} word
    COMPREPLY=()
    # bash takes the '=' of '--rules=5' for a word of its own
    if [[ $current == = ]]; then
        current=
    elif [[ $previous == = ]]; then
        previous=${COMP_WORDS[COMP_CWORD - 2]}
    fi
    for word in "${COMP_WORDS[@]:1:COMP_CWORD - 1}"; do
        # after '--' each word is a path
        [[ $word == -- ]] && return
    done
    case $previous in
        --rules | --main | --trace) compopt +o default ;; # a value, which is no file
        --with) ;; # a file
        *)
            if [[ $current == -* ]]; then
                COMPREPLY=($(compgen -W '--rules --no-limit --main --strict --stats --explain --counts --counts-all --profile --trace --failures --raw --pretty --with --check -h --help -V --version' -- "$current"))
            fi
            ;;
    esac
}

complete -o default -F _strc strc
