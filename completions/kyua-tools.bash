# bash completion for kyua-tools(1): the commands that `kyua-tools` lists, and files.

_kyua_tools() {
    local cur=${COMP_WORDS[COMP_CWORD]}
    if [ "$COMP_CWORD" = 1 ]; then
        mapfile -t COMPREPLY < <(compgen -W "$("${COMP_WORDS[0]}" 2> /dev/null | sed -n 's/^  \([^ ]*\) .*/\1/p') --help" -- "$cur")
    else
        mapfile -t COMPREPLY < <(compgen -f -- "$cur")
        compopt -o filenames 2> /dev/null
    fi
}

complete -F _kyua_tools kyua-tools
