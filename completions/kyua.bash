# bash completion for kyua(1): commands, options, variables, kinds of results, and the programs and cases that `kyua list` prints. Each TAB
# after a command over test cases starts all ATF programs of the tree for their lists.
# shellcheck shell=bash

# _kyua_words: puts the words up to the cursor into words, without their quotes.
_kyua_words() {
    local rest=${COMP_LINE:0:COMP_POINT} quote='' next last=0
    words=('')
    while [ -n "$rest" ]; do
        next=${rest:0:1}
        rest=${rest:1}
        case $quote$next in
            \\) words[last]+=${rest:0:1}; rest=${rest:1} ;;
            \" | \') quote=$next ;;
            \"\" | \'\') quote='' ;;
            [[:space:]]) [ -z "${words[last]}" ] || { words+=(''); last=$((last + 1)); } ;;
            *) words[last]+=$next ;;
        esac
    done
}

# _kyua_plain WORD: puts the path that a word stands for, which may begin with ~ or $HOME, into plain.
_kyua_plain() {
    plain=$1
    case $1 in \~/* | \$HOME/* | \$\{HOME\}/*) plain=$HOME/${1#*/} ;; esac
}

# _kyua_complete PREFIX WORD..: offers PREFIX followed by each of these words that matches what was typed.
_kyua_complete() {
    local IFS=$'\n' prefix=$1 begun=$cur
    shift
    # bash takes what follows a colon or an equals sign for a word of its own.
    case $cur in *[:=]*) begun=${cur##*[:=]} ;; esac
    mapfile -t COMPREPLY < <(printf '%s\n' "${@/#/$prefix}" | while IFS= read -r word; do
        case $word in "$cur"*) printf '%s\n' "${word#"${cur%"$begun"}"}" ;; esac
    done)
    case ${COMPREPLY[0]-} in *[=.]) compopt -o nospace 2> /dev/null ;; esac
}

# _kyua_files KIND PREFIX: offers files (f) or directories (d) behind PREFIX.
_kyua_files() {
    local plain=${cur#"$2"}
    # bash itself knows ~.
    case $plain in \$*) _kyua_plain "$plain" ;; esac
    mapfile -t COMPREPLY < <(compgen "-$1" -- "$plain")
    compopt -o filenames 2> /dev/null
}

# _kyua_kinds: offers the kinds of results that the list doesn't have yet.
_kyua_kinds() {
    local given=,${cur#*=} kind kinds=()
    for kind in passed skipped xfail broken failed; do
        case ${given%,*}, in *",$kind,"*) ;; *) kinds+=("$kind") ;; esac
    done
    _kyua_complete "${cur%"${cur##*[=,]}"}" "${kinds[@]}"
}

# _kyua_cases [PATTERN]: offers the cases of the Kyuafile and their programs and directories, or those that awk finds by a pattern.
_kyua_cases() {
    local plain program cases
    _kyua_plain "${words[0]}"
    program=$plain
    _kyua_plain "$kyuafile"
    mapfile -t cases < <("$program" list -k "$plain" 2> /dev/null < /dev/null | awk '
        /^kyua: [EW]: / { next }
        { print; sub(/:.*/, "") }
        { while (!seen[$0]++) { print; if (!sub(/\/[^\/]*$/, "")) break } }' | awk "${1-1}")
    _kyua_complete '' "${cases[@]}"
}

_kyua() {
    local words cur word before='' command='' given='' kyuafile=Kyuafile variables=(architecture= parallelism= platform= test_suites.)
    COMPREPLY=()
    _kyua_words
    cur=${words[${#words[@]} - 1]}
    for word in "${words[@]:1:${#words[@]}-2}"; do
        case $before in
            -k | --kyuafile) kyuafile=$word; before=; continue ;;
            -c | -v | -r | --config | --variable | --results-file | --work) before=; continue ;;
        esac
        case $word in
            --kyuafile=*) kyuafile=${word#*=} ;;
            -*) ;;
            list | test | debug | report | report-junit) given=$command; command=${command:-$word} ;;
            *) given=$command ;;
        esac
        before=$word
    done
    case $before:$cur in
        -[ckr]:* | --config:* | --kyuafile:* | --results-file:*) _kyua_files f ''; return ;;
        --work:*) _kyua_files d ''; return ;;
        -v:* | --variable:*) _kyua_complete '' "${variables[@]}"; return ;;
        *:--config=* | *:--kyuafile=* | *:--results-file=*) _kyua_files f "${cur%%=*}="; return ;;
        *:--work=*) _kyua_files d --work=; return ;;
        *:--variable=*) _kyua_complete --variable= "${variables[@]}"; return ;;
    esac
    case $command:$cur in
        :*) _kyua_complete '' -c -v --config= --variable= --help list test debug report report-junit ;;
        report:--results-filter=*) _kyua_kinds ;;
        list:-* | debug:-*) _kyua_complete '' -k --kyuafile= --work= --help ;;
        test:-*) _kyua_complete '' -k -r --kyuafile= --results-file= --work= --help ;;
        report:*) _kyua_complete '' -r --results-file= --run= --results-filter= --verbose --help ;;
        report-junit:*) _kyua_complete '' -r --results-file= --run= --help ;;
        debug:*) [ -n "$given" ] || _kyua_cases /:/ ;;
        *) _kyua_cases ;;
    esac
}

complete -F _kyua kyua
