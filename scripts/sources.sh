# Functions that the scripts share: the files that a build of the program kyua reads, the sources of a built program, and the help of a
# script. A script sets $top, the checkout, and sources this file.
# shellcheck shell=bash disable=SC2046,SC2154

# explain ARGUMENT..: does nothing without arguments. Otherwise it prints the first comment of the script, and exits: with 0 if the
# argument is -h or --help, else with 3.
explain() {
  case $#:${1-} in
    0:*) ;;
    1:-h | 1:--help) sed -n '2,/^[^#]/s/^# \{0,1\}//p' "$0"; exit 0 ;;
    *) sed -n '2,/^[^#]/s/^# \{0,1\}//p' "$0" >&2; exit 3 ;;
  esac
}

# Checks that the commands that compare sources are installed. Otherwise it prints each missing command and fails.
find_tools() {
  local tool missing=0
  for tool in awk find xargs grep sha256sum; do
    command -v "$tool" > /dev/null 2>&1 && continue
    case $tool in awk) set -- gawk ;; find | xargs) set -- findutils ;; grep) set -- grep ;; *) set -- coreutils ;; esac
    echo "The command $tool is missing: install the package $1." >&2
    missing=1
  done
  return $missing
}

# Adds rt to PATH, from the kit that RATTLE_KIT names, if PATH doesn't have it. If there is no rt, it prints a message and fails.
find_rt() {
  if command -v rt >/dev/null 2>&1; then return 0; fi
  if [ ! -x "${RATTLE_KIT-}/bin/rt" ]; then
    echo "${0##*/}: the command rt of Rattle is missing: it is neither on PATH nor in the bin directory of the kit that RATTLE_KIT names" >&2
    return 1
  fi
  PATH="$RATTLE_KIT/bin:$PATH"
  export PATH
}

# The program that this checkout built, and the record of its sources.
built=$top/crates/kyua/out/kyua
record_of_built=$top/crates/kyua/out/built

# crates_up_to CRATE: prints a crate and the crates below it, the lowest first.
crates_up_to() {
  awk -F: -v left="$1" '/^[a-z]/ { below[$1] = $2; name[NR] = $1 }
    END {
      while (split(left, names, " ")) {
        sub(/^ *[^ ]+/, "", left)
        if (!(names[1] in below) || names[1] in seen) continue
        seen[names[1]] = 1
        left = left " " below[names[1]]
      }
      for (line = 1; line <= NR; line++) if (name[line] in seen) print name[line]
    }' "$top/crates.txt"
}

# Prints the files and directories that a build reads, relative to the checkout. No name has a space.
places_of_sources() {
  local name part
  printf '%s\n' HANDLES crates.txt
  for name in $(crates_up_to kyua); do
    for part in src specs proofs; do
      [ ! -d "$top/crates/$name/$part" ] || printf '%s\n' "crates/$name/$part"
    done
  done
}

# Prints the hash of a list with a line for each file that a build reads: the hash of its bytes, and its path.
hash_of_sources() {
  (cd "$top" && find $(places_of_sources) -type f | LC_ALL=C sort | xargs sha256sum) | sha256sum | cut -d ' ' -f 1
}

hash_of() {
  sha256sum < "$1" | cut -d ' ' -f 1
}

# make_record PROGRAM SOURCES: prints the record of a program: the hash of its sources, the kit, and the hash of the program itself.
make_record() {
  printf '%s\n' "sources $2" "kit $(rt --version)" "program $(hash_of "$1")"
}

# says RECORD NAME VALUE: succeeds if a record has this line.
says() {
  grep -Fxq "$2 $3" "$1"
}

# Succeeds if this checkout built a program from the current sources.
is_built() {
  [ -x "$built" ] && [ -f "$record_of_built" ] && says "$record_of_built" program "$(hash_of "$built")" &&
    says "$record_of_built" sources "$(hash_of_sources)"
}
