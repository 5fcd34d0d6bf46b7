#!/usr/bin/env bash
# Searches specs/ for definitions that only private functions need. specs/ contains the definitions for callers and readers. The
# definitions that describe a private function's steps belong in specs/Inner of its crate.
#
#   definitions.sh
#
# A definition is needed if a clause or a ghost member of an exported item or of the program's platform names it. It is also needed if
# a needed definition names it. The script prints each other definition outside Inner that a clause names.
# The last line is 'N passed, M failed', over the crates. Exits with 0 if M is 0, else with 1.
set -eu -o pipefail
top=$(cd "$(dirname "$0")/.." && pwd)
. "$top/scripts/sources.sh"
explain "$@"
cd "$top/crates"
crates=$(crates_up_to kyua)
# The exported items come first.
files=$(for name in $crates; do [ ! -e "$name/src/lib.rt" ] || echo "$name/src/lib.rt"; done
  for name in $crates; do find "$name" -path "$name/specs/*.antt" -o -path "$name/src/*.rt" ! -name lib.rt; done | LC_ALL=C sort)
found=$(echo "$files" | LC_ALL=C xargs awk '
  # The module of a file of specs/: its crate and its path.
  function module_of(path) {
    sub(/\.antt$/, "", path)
    sub(/\/specs\//, ".", path)
    gsub(/\//, ".", path)
    return path
  }
  # Records the items that the names of an import mean in this file, and in files that import them from it.
  function import(line,   place, names, parts, n, i, words, m) {
    sub(/^[ \t]*((ghost|pub) )?use Rattle\./, "", line)
    sub(/;[ \t]*$/, "", line)
    if (line !~ /^kt_[a-z]*\.specs\./ || line ~ /\.specs\.declared\./) return
    sub(/\.specs\./, ".", line)
    if (!match(line, /\.\{.*\}/)) {
      m = split(line, words, / as /)
      i = words[1]
      sub(/.*\./, "", i)
      alias[FILENAME, m > 1 ? words[2] : i] = words[1]
      return
    }
    place = substr(line, 1, RSTART - 1)
    names = substr(line, RSTART + 2, RLENGTH - 3)
    n = split(names, parts, /, */)
    for (i = 1; i <= n; i++) {
      m = split(parts[i], words, / as /)
      stands[FILENAME, words[m]] = place "." words[1]
      if (is_spec) passed[module "." words[m]] = place "." words[1]
    }
  }
  # Records the names in a text as names that a definition or a clause uses. A name of the same module comes last.
  function note(from, text,   word, rest, parts) {
    while (match(text, /[A-Za-z_][A-Za-z0-9_.\x27-]*/)) {
      word = substr(text, RSTART, RLENGTH)
      text = substr(text, RSTART + RLENGTH)
      named[++names_count] = from SUBSEP FILENAME SUBSEP word
      if (split(word, parts, /\./) > 1) named[++names_count] = from SUBSEP FILENAME SUBSEP parts[1]
    }
  }
  FNR == 1 {
    is_spec = FILENAME ~ /\.antt$/
    crate = FILENAME
    sub(/\/.*/, "", crate)
    module = is_spec ? module_of(FILENAME) : ""
    modules[FILENAME] = module
    current = owner = ""
    base = 0
    in_clause = in_use = 0
    owner_is_trait = owner_is_impl_of_trait = 0
  }
  is_spec && /^(pub )?use / { import($0); next }
  is_spec {
    line = $0
    sub(/--.*/, "", line)
    if (line ~ /^module .* where/) { base = -1; next }
    if (line ~ /^[ \t]*$/) next
    match(line, /^ */)
    if (base == -1) base = RLENGTH
    if (RLENGTH == base) {
      line = substr(line, base + 1)
      if (line ~ /^unfolding /) next
      while (line ~ /^(abbrev|pub|data|record|postulate) /) sub(/^[a-z]+ /, "", line)
      match(line, /^[^ ]+/)
      current = module "." substr(line, 1, RLENGTH)
      defined[current] = FILENAME ":" FNR
    } else if (line ~ /^ +(pub )?[a-zA-Z_][A-Za-z0-9_\x27-]* :/) {
      # A constructor or a field counts as its definition.
      word = line
      sub(/^ +(pub )?/, "", word)
      sub(/ .*/, "", word)
      part_of[module "." word] = current
    }
    note(current, line)
    next
  }
  # The exports of the crate.
  FILENAME ~ /\/lib\.rt$/ && /^pub use / { in_use = 1; text = "" }
  in_use {
    text = text " " $0
    if (/;/) {
      in_use = 0
      sub(/^ *pub use /, "", text)
      while (match(text, /[A-Za-z_][A-Za-z0-9_]*/)) {
        exported[crate, substr(text, RSTART, RLENGTH)] = 1
        text = substr(text, RSTART + RLENGTH)
      }
    }
    next
  }
  /^[ \t]*ghost use / { import($0); next }
  /^[ \t]*\/\// { next }
  /^(pub(\([a-z]*\))? )?trait / { word = $0; sub(/^(pub(\([a-z]*\))? )?trait /, "", word); sub(/[^A-Za-z0-9_].*/, "", word); owner = word; owner_is_trait = 1; owner_is_impl_of_trait = 0 }
  /^impl/ {
    word = $0
    owner_is_trait = 0
    owner_is_impl_of_trait = word ~ / for /
    if (owner_is_impl_of_trait) sub(/.* for /, "", word)
    else { sub(/^impl(<[^>]*>)? /, "", word) }
    sub(/[^A-Za-z0-9_].*/, "", word)
    owner = word
  }
  /^[}]/ { owner = "" ; owner_is_trait = owner_is_impl_of_trait = 0 }
  /^[ \t]*(pub(\([a-z]*\))? )?(final )?(const )?fn / {
    word = $0
    sub(/.*fn /, "", word)
    sub(/[^A-Za-z0-9_].*/, "", word)
    is_pub = $0 ~ /^[ \t]*pub / || owner_is_trait || owner_is_impl_of_trait
    if (owner != "") word = owner
    is_public = is_pub && ((crate, word) in exported)
    in_clause = 0
  }
  # Ghost members of a type or of a trait.
  /^[ \t]*ghost [a-z_]+( =|:)/ { is_public = (crate, owner) in exported || crate == "kyua"; in_clause = 1 }
  /^[ \t]*(requires|ensures) / { in_clause = 1 }
  /^[ \t]*[{]$/ { in_clause = 0 }
  in_clause { note(is_public ? "public" : "private", $0); if (/;$/) in_clause = 0 }
  END {
    for (i = 1; i <= names_count; i++) {
      split(named[i], part, SUBSEP)
      word = part[3]
      target = ""
      if ((part[2], word) in stands) target = stands[part[2], word]
      else if (index(word, ".")) {
        rest = word
        sub(/\..*/, "", word)
        sub(/^[^.]*\./, "", rest)
        sub(/\..*/, "", rest)
        if ((part[2], word) in alias) target = alias[part[2], word] "." rest
      }
      if (target == "" && modules[part[2]] != "" && (modules[part[2]] "." word in defined || modules[part[2]] "." word in part_of)) target = modules[part[2]] "." word
      if (!(target in defined) && target in passed) target = passed[target]
      if (target in part_of && !(target in defined)) target = part_of[target]
      if (target == "" || !(target in defined) || target == part[1]) continue
      if (part[1] == "private") { by_private[target] = 1; continue }
      if (part[1] == "public") { if (!(target in reached)) { reached[target] = 1; queue[++last] = target }; continue }
      leads[part[1]] = leads[part[1]] SUBSEP target
    }
    for (first = 1; first <= last; first++) {
      n = split(leads[queue[first]], next_ones, SUBSEP)
      for (j = 1; j <= n; j++) if (next_ones[j] != "" && !(next_ones[j] in reached)) { reached[next_ones[j]] = 1; queue[++last] = next_ones[j] }
    }
    for (name in by_private) if (!(name in reached) && name !~ /\.Inner\./) print defined[name] ": " name
  }' | LC_ALL=C sort)
passed=0
failed=0
for name in $crates; do
  if printf '%s\n' "$found" | grep "^$name/"; then failed=$((failed + 1)); else passed=$((passed + 1)); fi
done
echo "$passed passed, $failed failed"
[ "$failed" = 0 ]
