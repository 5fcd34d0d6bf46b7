#!/bin/sh
# Installs the programs kyua and kyua-tools, their manual pages, their completions for shells and the examples:
#
#     install.sh [PREFIX]                 below PREFIX. Without it, below $PREFIX if that is set, else below /usr/local
#     install.sh --uninstall [PREFIX]     removes the installed files, and prints each file and directory that it removes
#     install.sh --help                   prints this
#
# The program is the one that kyua.sh runs, so it is built if there is none. If DESTDIR is set, all paths are below it, for packagers.
# PREFIX/share/kyua/installed lists the installed files and the directories that were created for them. --uninstall removes these, and a
# directory only if it is empty. A file that isn't in this list is never replaced. Exits with 0 if all is done, else with 1.
set -eu
umask 022
top=$(cd "$(dirname "$0")" && pwd)

usage() {
    sed -n '2,/^set/s/^# \{0,1\}//p' "$0"
}

fail() {
    echo "install.sh: $*" >&2
    exit 1
}

# remove_all FILE: removes the files that FILE lists, and then the listed directories that are empty. It prints each file and directory
# that it removes, and each directory that it leaves.
remove_all() {
    sed -n '/[^/]$/p' "$1" | while IFS= read -r name; do
        if [ -e "$root/$name" ]; then
            rm -f "$root/$name"
            echo "removed $root/$name"
        fi
    done
    sed -n 's|/$||p' "$1" | LC_ALL=C sort -r | while IFS= read -r name; do
        if rmdir "$root/$name" 2> /dev/null; then
            echo "removed $root/$name/"
        elif [ -d "$root/$name" ]; then
            echo "left $root/$name/, which has files that were not installed"
        fi
    done
}

uninstall_all() {
    [ -f "$list" ] || fail "nothing was installed below ${root:-/}: there is no $list"
    half='run it again'
    { cat "$list"; echo "$own/installed"; } > "$room/old"
    remove_all "$room/old"
}

# files DIRECTORY: prints the files below a directory of the checkout, except results files.
files() {
    (cd "$top" && find "$1" -type f ! -name 'kyua.db*' | LC_ALL=C sort)
}

# mode FILE: prints the mode with which a file of the checkout is installed.
mode() {
    if [ -x "$top/$1" ]; then echo 755; else echo 644; fi
}

# sources: prints a line for each file to install: its mode, its path below the prefix, and its path in the checkout.
sources() {
    echo "755 bin/kyua -"
    echo "755 bin/kyua-tools tools/kyua-tools"
    files tools | grep -Fxv tools/kyua-tools | while IFS= read -r file; do echo "$(mode "$file") $commands/${file#tools/} $file"; done
    for page in "$top"/man/*.[15]; do
        page=${page##*/}
        echo "644 share/man/man${page##*.}/$page man/$page"
    done
    for name in kyua kyua-tools; do
        echo "644 share/bash-completion/completions/$name completions/$name.bash"
        echo "644 share/zsh/site-functions/_$name completions/_$name"
        echo "644 share/fish/vendor_completions.d/$name.fish completions/$name.fish"
    done
    files examples | while IFS= read -r file; do echo "$(mode "$file") $own/$file $file"; done
}

# directories PATH: prints the directories above a path, the outermost first, each with a slash after it.
directories() {
    case $1 in
        */*) directories "${1%/*}"; echo "${1%/*}/" ;;
    esac
}

# plan: prints the lines of the new list: the directories that don't exist or were created before, and the files.
plan() {
    while read -r mode target source; do directories "$target"; done < "$room/sources" | LC_ALL=C sort -u |
        while IFS= read -r name; do
            if [ ! -d "$root/$name" ] || grep -Fxq "$name" "$room/old"; then echo "$name"; fi
        done
    cut -d ' ' -f 2 "$room/sources"
}

# page FILE: prints a manual page, with this version at its foot and the paths of this prefix.
page() {
    for_sed=$(printf '%s' "$prefix" | sed 's/[\\&|]/\\&/g')
    sed -e "s|^\.Os\$|.Os Fermyzhal $version|" -e "s|/usr/local/|$for_sed/|g" "$1"
}

# place MODE SOURCE TARGET: installs a file atomically, so that a running program continues.
place() {
    fresh=$3.new
    case $2 in
        *.[15]) page "$2" > "$3.new" ;;
        *) cp "$2" "$3.new" ;;
    esac
    chmod "$1" "$3.new"
    mv -f "$3.new" "$3"
    fresh=
}

install_all() {
    program=$("$top/scripts/program.sh")
    version=$("$top/scripts/version.sh" 2> /dev/null) || version=$(sed -n '/^## \([0-9][0-9.]*\) .*/{s//\1/p;q;}' "$top/CHANGELOG.md")
    sources > "$room/sources"
    if [ -f "$list" ]; then cp "$list" "$room/old"; else : > "$room/old"; fi
    plan > "$room/new"
    while read -r mode target source; do
        if [ -e "$root/$target" ] && ! grep -Fxq "$target" "$room/old"; then
            fail "$root/$target exists, but this script did not install it: remove it first, if necessary with the checkout that installed it"
        fi
    done < "$room/sources"
    # The list is written first, so that an installation that fails half-way can be removed.
    half='run it again, or with --uninstall'
    mkdir -p "$root/$own"
    LC_ALL=C sort -u "$room/old" "$room/new" > "$room/all"
    place 644 "$room/all" "$list"
    while read -r mode target source; do
        mkdir -p "$root/${target%/*}"
        if [ "$source" = - ]; then place "$mode" "$program" "$root/$target"; else place "$mode" "$top/$source" "$root/$target"; fi
        echo "installed $root/$target"
    done < "$room/sources"
    # Files of an earlier version that this version doesn't have are removed.
    grep -Fxv -f "$room/new" "$room/old" > "$room/gone" || :
    remove_all "$room/gone"
    place 644 "$room/new" "$list"
}

action=install_all
prefix=
for word; do
    case $word in
        -h | --help) usage; exit 0 ;;
        --uninstall) action=uninstall_all ;;
        -* | '') usage >&2; exit 1 ;;
        *)
            [ -z "$prefix" ] || { usage >&2; exit 1; }
            prefix=$word
            ;;
    esac
done
prefix=${prefix:-${PREFIX:-/usr/local}}
prefix=$(realpath -ms "$prefix")
[ "$prefix" != / ] || prefix=
root=${DESTDIR-}
root=${root%/}$prefix
own=share/kyua
commands=libexec/kyua-tools
list=$root/$own/installed
# The file that is being written, and the advice that is printed if the script ends half-way.
fresh=
half=

# ended: cleans up after a normal end, a signal, or a closed standard output.
ended() {
    status=$?
    rm -rf "$room"
    [ -z "$fresh" ] || rm -f "$fresh"
    [ $status = 0 ] || [ -z "$half" ] || echo "install.sh: it was stopped half-way: $half" >&2
}
room=$(mktemp -d)
trap ended EXIT
trap 'exit 1' HUP INT TERM PIPE
$action
