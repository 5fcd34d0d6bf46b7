#!/usr/bin/env bash
# Checks the pages, which are all files *.md.
#
#   documents.sh
#
# The rules are:
# - Each link leads to an existing file, and to an existing heading of it.
# - ARCHITECTURE.md names each page of docs/, and no other page.
# - Each path, function and definition in backquotes, or in a table row or a list item of ARCHITECTURE.md, exists in the tree. A path ends
#   like a file of this tree or begins with one of its directories. A name has an underscore, or a capital followed by small letters.
# - prose.py checks sentences, tables, terms, comments and names.
# For each rule there are wrong texts that the rule must find.
#
# Prints each place that breaks a rule, and each wrong text that its rule doesn't find. The last line is 'N passed, M failed', over the
# rules and these texts. Exits with 0 if M is 0, else with 1.
set -eu -o pipefail
top=$(cd "$(dirname "$0")/.." && pwd)
. "$top/scripts/sources.sh"
explain "$@"
cd "$top"
room=$(mktemp -d)
trap 'rm -rf "$room"' EXIT
passed=0
failed=0
find . \( -name out -o -name .git \) -prune -o -printf '%y %P\n' | LC_ALL=C sort -u > "$room/files"

# Prints each place of some pages that breaks a rule. A line has the rule, a tab, the place and the text. It prints each name that must
# exist in the tree with the rule `word`. The path of a page is relative to the directory.
#   read_pages DIRECTORY PAGE..
read_pages() {
  (cd "$1" && shift && LC_ALL=C awk '
    function tell(rule, text) { print rule "\t" FILENAME ":" FNR ": " text }
    # The path of a file that a page names relative to itself.
    function from_page(page, path,   n, m, part, whole, i) {
      if (page ~ /\//) { sub(/[^\/]*$/, "", page); path = page path }
      n = split(path, part, "/")
      m = 0
      for (i = 1; i <= n; i++) {
        if (part[i] == ".." && m > 0) m--
        else if (part[i] != "" && part[i] != ".") whole[++m] = part[i]
      }
      path = ""
      for (i = 1; i <= m; i++) path = path (i > 1 ? "/" : "") whole[i]
      return path
    }
    function heading(line) {
      sub(/^#+ */, "", line)
      line = tolower(line)
      gsub(/[^a-z0-9 _\200-\377-]/, "", line)
      gsub(/ /, "-", line)
      return line
    }
    # Returns 1 if a path exists in the tree: relative to the root or to the page, or as the end of another path.
    function stands(path) {
      sub(/^\.\//, "", path)
      sub(/\/$/, "", path)
      return path in there || from_page(FILENAME, path) in there || path in ends
    }
    function look_for_path(path) {
      if (FILENAME == "docs/ARCHITECTURE.md") named[from_page(FILENAME, path)] = 1
      if (path ~ /^[~\/]|^\.\.$|\.\.\.|\/out\/|^out\// || path ~ /(^|\/)[A-Z]+(\/|\.rows$|\.edit$|$)/) return
      sub(/[.,;:]$/, "", path)
      if (path !~ /^[A-Za-z0-9_.\/-]+$/) return
      if (path ~ /^[.A-Za-z0-9_\/-]*[A-Za-z0-9_]\.(rt|antt|md|sh|rows|edit|c|h|py)$/ || path ~ /^(\.\/)?[a-z_.0-9-]+\// && (from_top(path) in folder))
        if (!stands(path)) tell("name", "there is no " path)
    }
    function from_top(path) { sub(/^\.\//, "", path); sub(/\/.*/, "", path); return path }
    # Checks a text in backquotes.
    function look_for(text,   n, parts, i) {
      n = split(text, parts, " ")
      for (i = 1; i <= n; i++) look_for_path(parts[i])
      if (n != 1) return
      sub(/\(.*\)$/, "", text)
      if (text !~ /^[A-Za-z_][A-Za-z0-9_]*(\.[A-Za-z_][A-Za-z0-9_]*)*$/) return
      n = split(text, parts, ".")
      if (n > 1 && text !~ /^[A-Z]/) return
      for (i = 1; i <= n; i++) if (parts[i] ~ /[a-z0-9]_[a-z0-9]|^[A-Z][A-Za-z0-9]*[a-z]/) print "word\t" parts[i] "\t" FILENAME ":" FNR
    }
    FILENAME == files {
      kind = $1
      path = substr($0, 3)
      there[path] = 1
      if (kind == "d") { folder[path] = 1; sub(/.*\//, "", path); folder[path] = 1; path = substr($0, 3) }
      # The ends of a path represent it, also without the suffix of a definition.
      while (sub(/^[^\/]*\//, "", path)) {
        ends[path] = 1
        short = path
        if (sub(/\.antt$/, "", short)) ends[short] = 1
      }
      next
    }
    FNR == 1 { code = 0; delete seen }
    /^ *```/ { code = !code; next }
    code { next }
    /^#/ {
      name = heading($0)
      count = seen[name]++
      headings[FILENAME "#" name (count ? "-" count : "")] = 1
    }
    /^(\||- )/ && FILENAME ~ /ARCHITECTURE\.md$/ {
      row = $0
      gsub(/\|/, " ", row)
      gsub(/`[^`]*`|\]\([^)]*\)|[(),;:]/, " ", row)
      n = split(row, words, " ")
      for (i = 1; i <= n; i++) look_for_path(words[i])
    }
    {
      rest = $0
      while (match(rest, /`[^`]+`/)) {
        look_for(substr(rest, RSTART + 1, RLENGTH - 2))
        rest = substr(rest, RSTART + RLENGTH)
      }
      rest = $0
      gsub(/`[^`]*`/, "", rest)
      while (match(rest, /\]\([^)]*\)/)) {
        target = substr(rest, RSTART + 2, RLENGTH - 3)
        rest = substr(rest, RSTART + RLENGTH)
        if (target ~ /^[a-z]+:/) continue
        path = target
        sub(/#.*/, "", path)
        path = path == "" ? FILENAME : from_page(FILENAME, path)
        if (path != FILENAME && !(path in there)) tell("link", "there is no " target)
        else if (target ~ /#/) { mark = target; sub(/^[^#]*#/, "", mark); marks[FILENAME ":" FNR ": no heading " target] = path "#" mark }
        if (FILENAME == "docs/ARCHITECTURE.md") named[path] = 1
      }
    }
    END {
      for (place in marks) if (!(marks[place] in headings)) print "link\t" place
      if (!("docs/ARCHITECTURE.md" in there)) print "page\tthere is no docs/ARCHITECTURE.md"
      for (path in there)
        if (path ~ /^docs\/.*\.md$/ && path != "docs/ARCHITECTURE.md" && !(path in named)) print "page\tdocs/ARCHITECTURE.md does not name " path
    }' files="$room/files" "$room/files" "$@")
}

# Prints each place of some pages that breaks a rule, also each name that only pages contain.
#   look DIRECTORY PAGE..
look() {
  read_pages "$@" > "$room/read"
  sed -n 's/^word\t\([^\t]*\)\t.*/\1/p' "$room/read" | LC_ALL=C sort -u > "$room/wanted"
  : > "$room/known"
  if [ -s "$room/wanted" ]; then
    # This script contains the names of wrong pages, and dist/ contains strings that are not names.
    sed -n '/\.md$/d; /^f dist\//d; /documents\.sh$/d; s/^f //p' "$room/files" | tr '\n' '\0' |
      LC_ALL=C xargs -0 grep -ahowFf "$room/wanted" > "$room/known" || true
    sed 's/.*\///; s/\.[a-z]*$//' "$room/files" >> "$room/known"
  fi
  LC_ALL=C sort -u "$room/known" | LC_ALL=C comm -23 "$room/wanted" - > "$room/missing"
  LC_ALL=C awk -F '\t' 'FILENAME ~ /missing$/ { missing[$1] = 1; next } $1 != "word"; $1 == "word" && $2 in missing { print "name\t" $3 ": nothing is named " $2 }' \
    "$room/missing" "$room/read"
}

# wrong RULE NAME: adds standard input to a page docs/NAME, where it breaks this rule.
wrong() {
  mkdir -p "$room/docs"
  { echo; cat; } > "$room/text"
  : >> "$room/docs/$2"
  echo "$1	docs/$2:$(($(wc -l < "$room/docs/$2") + 2)): " >> "$room/due"
  cat "$room/text" >> "$room/docs/$2"
}

pages=()
while IFS= read -r page; do pages+=("$page"); done < <(sed -n 's/^f \(.*\.md\)$/\1/p' "$room/files")
look . "${pages[@]}" > "$room/told"
for rule in link page name; do
  if grep "^$rule	" "$room/told" | sed 's/^[a-z]*\t/documents.sh: /'; then failed=$((failed + 1)); else passed=$((passed + 1)); fi
done

wrong link x.md <<< 'See [the gate](gone.md).'
wrong link x.md <<< 'See [below](#the-gate).'
wrong link x.md < <(printf 'See [the gate](#the-gates-2).\n\n## The gates\n\n## The gates\n')
wrong name x.md <<< 'It stands in `scripts/gone.sh`.'
wrong name x.md <<< 'Call `tests/run.sh docs/gone`.'
wrong name x.md <<< 'It stands in `gone.rt`.'
wrong name x.md <<< 'It calls `goes_nowhere`.'
wrong name x.md <<< 'It calls `goes_beyond()`.'
wrong name x.md <<< 'By `IsNowhere` that is so.'
wrong name x.md <<< 'By `Result.NeverNamed` that is so.'
wrong link ARCHITECTURE.md <<< '[gates.md](gates.md)'
wrong name ARCHITECTURE.md <<< '| a rule | src/gone.rt |'
wrong name ARCHITECTURE.md <<< '- a room: gone.rt, mod.rt'
echo 'page	docs/ARCHITECTURE.md does not name docs/gate.md' >> "$room/due"
look "$room" docs/x.md docs/ARCHITECTURE.md > "$room/found"
while IFS= read -r due; do
  if grep -Fq -e "$due" "$room/found"; then
    passed=$((passed + 1))
  else
    failed=$((failed + 1))
    echo "documents.sh: the rule does not find a wrong text: $due"
  fi
done < "$room/due"

scripts/prose.py > "$room/prose" || true
counts=$(sed -n 's/^\([0-9]*\) passed, \([0-9]*\) failed$/\1 \2/p' "$room/prose")
grep '^prose[.]py: ' "$room/prose" || true
counts=${counts:-0 1}
echo "$((passed + ${counts% *})) passed, $((failed + ${counts#* })) failed"
[ "$((failed + ${counts#* }))" = 0 ]
