#!/usr/bin/env bash
# Searches the sources of the program for effects that no contract rejects. An allocation, a read or a write may fail at any time, and a
# command may then report the failure. No contract rejects a function that reports such a failure without a cause. The same holds for a
# function that removes, moves or truncates another file, or starts another process.
#
#   faults.sh
#
# Each rule lists the only places that may have the effect, with reasons, and the mutants that the rule must find. A mutant is one of
# mutants-tested.txt, by its name, or is given by its lines. Each rule names at least one mutant of mutants-tested.txt.
# Prints each place that no list contains, each listed place that the sources don't contain, and each mutant that its rule doesn't find.
# The last line is 'N passed, M failed', over the rules and the mutants. Exits with 0 if M is 0, else with 1.
set -eu -o pipefail
top=$(cd "$(dirname "$0")/.." && pwd)
. "$top/scripts/sources.sh"
explain "$@"
cd "$top/crates"
passed=0
failed=0
# 1 if the last rule, if there is one, names a mutant of mutants-tested.txt.
has_mutant=1

# Prints the sources of the program, without comments and most lines of contracts. Each printed line has the path, a tab, and the line
# without the spaces around it.
sources() {
  local name
  for name in $(crates_up_to kyua); do
    find "$name/src" -name '*.rt' | LC_ALL=C sort | xargs awk '
      { sub(/^[ \t]+/, ""); sub(/(^|[ \t])\/\/.*$/, ""); sub(/[ \t]+$/, "") }
      $0 != "" && $0 !~ /^ghost use/ && $0 !~ /≡/ { print FILENAME "\t" $0 }'
  done
}

# own_writers FILE: prints the path and the call for each call of a function that takes a writer (`W: Write`), if the last argument
# isn't the caller's parameter `out`. It prints each `let out` too, since that makes another writer of this name.
own_writers() {
  local writing
  writing=$(sed -n 's/^.*fn \([a-z_]*\)<[A-Z]: Write.*/\1/p; s/^.*fn \([a-z_]*\)<.*, [A-Z]: Write.*/\1/p' "$1" |
    sort -u | tr '\n' ' ')
  NAMES=$writing awk -F '\t' '
    BEGIN { count = split(ENVIRON["NAMES"], list, " "); for (n = 1; n <= count; n++) writes[list[n]] = 1 }
    # Searches the text of one file, in which spaces join the lines.
    function look(file, text,   at, name, rest, depth, sign, here) {
      if (text !~ /[^A-Za-z]Write[^A-Za-z]/) return
      while (match(text, /[a-z_][a-z_0-9]*\(/)) {
        name = substr(text, RSTART, RLENGTH - 1)
        here = substr(text, 1, RSTART - 1)
        rest = substr(text, RSTART + RLENGTH)
        if (name in writes && here !~ /fn $/) {
          depth = 1
          for (at = 1; depth > 0 && at <= length(rest); at++) {
            sign = substr(rest, at, 1)
            if (sign == "(") depth++
            if (sign == ")") depth--
          }
          call = substr(rest, 1, at - 2)
          gsub(/[ ,]+$/, "", call)
          if (call != "" && call !~ /(^|[ (])out$/) print file ": " name "(" call ")"
        }
        text = rest
      }
    }
    $1 != file { look(file, text); file = $1; text = "" }
    { text = text " " $2 }
    $2 ~ /Write/ { has_writer[$1] = 1 }
    $2 ~ /let (mut )?out( |:|$)/ { bound[$1] = $2 }
    END {
      look(file, text)
      for (file in bound) if (file in has_writer) print file ": " bound[file]
    }' "$1"
}

# paths FILE PATTERN: prints the paths that have a line of this pattern.
paths() {
  PATTERN=$2 awk -F '\t' '$2 ~ ENVIRON["PATTERN"] { print $1 }' "$1" | uniq
}

# lines FILE PATTERN: prints the lines of this pattern, with their paths.
lines() {
  PATTERN=$2 awk -F '\t' '$2 ~ ENVIRON["PATTERN"] { print $1 ": " $2 }' "$1"
}

# lines_of_program FILE PATTERN: prints the lines of this pattern in the crate kyua, with their paths. `rt.alloc()` and `rt.stderr()`
# don't count.
lines_of_program() {
  PATTERN=$2 awk -F '\t' '
    $1 ~ "^kyua/src/" { line = $2; gsub(/rt[.](alloc|stderr)[(][)]/, "", line); if (line ~ ENVIRON["PATTERN"]) print $1 ": " $2 }' "$1"
}

# Counts a check, whose faults are in the file told, and prints them.
count() {
  if [ -s "$room/told" ]; then
    sed "s/^/faults.sh: $name: /" "$room/told"
    failed=$((failed + 1))
  else
    passed=$((passed + 1))
  fi
}

# rule NAME FINDER [PATTERN]: compares the places that FINDER prints with the places on standard input, which may break this rule.
# Each of these, or the first of several, comes after a comment with the reason.
rule() {
  check_mutant
  name=$1
  has_mutant=0
  shift
  finder=("$@")
  PLACES=$room/places awk '
    BEGIN { places = ENVIRON["PLACES"]; printf "" > places }
    /^#/ { reason = 1; next }
    !reason { print "has no reason: " $0 }
    { print > places }' > "$room/told"
  # Implementations of awk differ in backslashes and in numbers of repetitions.
  case ${2-} in *\\* | *[!'[']'{'*) echo "the pattern has a backslash or a brace: $2" >> "$room/told" ;; esac
  sort "$room/places" > "$room/named"
  "$1" "$room/sources" "${@:2}" | sort > "$room/found"
  comm -13 "$room/named" "$room/found" >> "$room/told"
  comm -23 "$room/named" "$room/found" | sed 's/^/listed here, but not in the sources: /' >> "$room/told"
  count
}

# Checks that the last rule names a mutant of mutants-tested.txt.
check_mutant() {
  [ "$has_mutant" = 0 ] || return 0
  echo 'the rule names no mutant of mutants-tested.txt' > "$room/told"
  count
}

# body PATH LINE: checks that the last rule finds a mutant of this source, in which standard input replaces this line.
body() {
  cat > "$room/new"
  sed "s,^,$1	," "$room/new" > "$room/new lines"
  : > "$room/told"
  if ! PLACE=$1 LINE=$2 NEW="$room/new lines" awk -F '\t' '
    BEGIN { new = ENVIRON["NEW"] }
    $1 == ENVIRON["PLACE"] && $2 == ENVIRON["LINE"] { while ((getline text < new) > 0) print text; close(new); seen++; next }
    { print }
    END { exit seen == 0 }' "$room/sources" > "$room/changed"; then
    echo "the line of a mutant is not in the sources: $1: $2" > "$room/told"
  elif [ -z "$("${finder[0]}" "$room/changed" "${finder[@]:1}" | sort | comm -13 "$room/named" -)" ]; then
    echo "the rule does not find a mutant: $1: $(tr '\n' ' ' < "$room/new")" > "$room/told"
  fi
  count
}

# mutant NAME: checks that the last rule finds this mutant of mutants-tested.txt, once it is switched on.
mutant() {
  has_mutant=1
  : > "$room/told"
  if ! NAME=$1 awk '
    BEGIN { crate = ENVIRON["NAME"]; sub("/.*", "", crate) }
    FNR == NR {
      if ($1 == "name:") is_named = $2 == ENVIRON["NAME"]
      if (is_named && $1 == "file:") place = crate "/" $2
      if (is_named && $1 == "old:") old = place "\t" substr($0, 6)
      if (is_named && $1 == "new:") {
        text = substr($0, 6)
        gsub(/!ON/, "false", text)
        gsub(/ON/, "true", text)
        new[old] = place "\t" text
        edits++
      }
      next
    }
    $0 in new { print new[$0]; seen++; next }
    { print }
    END { exit edits == 0 || seen != edits }' "$top/scripts/mutants-tested.txt" "$room/sources" > "$room/changed"; then
    echo "no such mutant, or the sources lack one of its lines: $1" > "$room/told"
  elif [ -z "$("${finder[0]}" "$room/changed" "${finder[@]:1}" | sort | comm -13 "$room/named" -)" ]; then
    echo "the rule does not find a mutant: $1" > "$room/told"
  fi
  count
}

room=$(mktemp -d)
trap 'rm -rf "$room"' EXIT
LC_ALL=C
export LC_ALL
sources > "$room/sources"

rule 'names the error of a failed allocation' paths '(^|[^A-Za-z])OutOfMemory([^A-Za-z]|$)' <<'PLACES'
# These distinguish a failed allocation from the other errors of a system call, of SQLite and of clap.
kt_base/src/no_memory.rt
kt_store/src/store_fault.rt
kt_args/src/command_fault.rt
PLACES
mutant kt_plan/many_variables_fail_by_kind
body kt_cli/src/host/performing.rt 'let around = match platform.process_env() {' <<'BODY'
let error = io::Error::from(ErrorKind::OutOfMemory);
let around = match platform.process_env() {
BODY

rule "names the allocator's error" paths 'Alloc(Error|Failed)([^A-Za-z]|$)' <<'PLACES'
# `NoMemory` is made from it.
kt_base/src/no_memory.rt
PLACES
mutant kt_plan/many_variables_fail_by_allocator
body kt_suite/src/loader.rt 'ReadFault::Missing | ReadFault::Failed => fault_at(file, alloc, 0, SuiteCause::Unreadable),' <<'BODY'
ReadFault::Missing => return Err(NoMemory::from(AllocError)),
ReadFault::Failed => fault_at(file, alloc, 0, SuiteCause::Unreadable),
BODY

# A function could choose a size that no machine has.
rule 'allocates a chosen size' lines \
  '(with_capacity|from_elem|(^|[^_])reserve[a-z_]*|repeat[a-z_]*|resize[a-z_]*|allocate[a-z_]*)[(]|vec![[][^]]*;|Layout' <<'PLACES'
# Capacity for one child, of which at most 256 run at once, and for the pending cleanups.
kt_child/src/driving/running_children.rt: children.reserve(1)?;
kt_child/src/driving/running_children.rt: pending.reserve(children.len() + 1)?;
# An exit for each command. The program runs its command by another function.
kt_cli/src/commands/execution.rt: let mut exits = Vec::with_capacity(alloc, commands.len())?;
# A block that is freed at once. Its result is dropped.
kyua/src/main.rt: let _ = Vec::<u8>::with_capacity(alloc, LARGE_BLOCK);
# A buffer of 128 KiB, for the largest variable that a process can have.
kt_os/src/machine/process_env.rt: let mut room = vec![in rt.alloc(); 0u8; MAX_VARIABLE_BYTES]?;
PLACES
body kt_plan/src/options/configuring.rt 'for word in words {' <<'BODY'
if words.len() > 64 {
let _all: Vec<u8> = Vec::from_elem(alloc, 0u8, usize::MAX)?;
}
for word in words {
BODY
mutant kt_plan/many_variables_want_memory
body kt_plan/src/options/configuring.rt 'for word in words {' <<'BODY'
let _all = "ab".repeat(alloc, usize::MAX)?;
for word in words {
BODY
body kt_plan/src/options/configuring.rt 'for word in words {' <<'BODY'
let _all = vec![in alloc; 0u8; usize::MAX]?;
for word in words {
BODY
body kt_child/src/driving/running_children.rt 'children.reserve(1)?;' <<'BODY'
children.reserve(usize::MAX)?;
BODY

# These values can be made without a failed allocation. An arm that matches such a value doesn't count.
rule 'reports a failed allocation' lines '(Refused|SinkFault|Self)::Memory($|[^ ]| [^=])' <<'PLACES'
# Converted from the error of a failed allocation.
kt_child/src/driving/starts.rt: Refused::Memory
kt_cli/src/commands/recorder.rt: StoreFault::NoMemory(_) => SinkFault::Memory,
PLACES
mutant kt_cli/many_filters_want_memory
mutant kt_child/every_start_refused_for_memory
body kt_cli/src/commands/recorder.rt 'if self.written.is_err() {' <<'BODY'
if entry.position > 4096 { return Err(SinkFault::Memory); }
if self.written.is_err() {
BODY

# The store fails if SQLite, a tree or the system returns an error, or if a check of what was read fails.
rule 'reports a failed store' paths '(^|[^A-Za-z_])DATABASE_FAILURE|DatabaseFailure [{] is|AllocationFailure[(]|DatabaseError::[A-Z][A-Za-z]*[(][A-Z]|(^|[^A-Za-z])(Store|Sql|Write)Error::|sqlite::Error::' <<'PLACES'
# The values, and the functions that convert an error.
kt_store/src/store_fault.rt
# A commit inside a transaction, a schema without the table, and rows and index entries with another layout.
kt_store/src/batch.rt
kt_dbfile/src/rules.rt
kt_dbfile/src/trees.rt
PLACES
mutant kt_store/many_runs_are_faulty
body kt_store/src/heads.rt 'let head = head_from_row(row)?;' <<'BODY'
if rows.len() > 500 { return Err(DatabaseError::Failed(DatabaseFailure { is_in_use: false })); }
let head = head_from_row(row)?;
BODY

# Only these calls report damage.
rule 'fails a check' lines '(^|[^a-z_])(ensure_sound|require_present)[(]' <<'PLACES'
# The two functions.
kt_store/src/store_fault.rt: pub fn ensure_sound(is_sound: bool) -> Result<(), DatabaseError>
# The path, the value and the random number that an open needs, and the sizes of its files.
kt_dbfile/src/runs_file.rt: ensure_sound(is_file_path(file.as_str()))?;
kt_dbfile/src/runs_file.rt: ensure_sound(!is_mounted_alone(rt, file))?;
kt_dbfile/src/runs_file.rt: let options = require_present(store_options(rt, access.max_cached_pages()))?;
kt_dbfile/src/runs_file.rt: let start = match require_present(start) {
kt_dbfile/src/opening.rt: let size = require_present(files.db.len().ok())?;
kt_dbfile/src/opening.rt: let log = require_present(files.log.len().ok())?;
# The schema of a file: its number, its list of objects, its tables.
kt_dbfile/src/opening.rt: require_present(schema_number_from_rows(settings.as_slice()))
kt_dbfile/src/runs_file.rt: ensure_sound(!self.store.is_broken())?;
kt_dbfile/src/runs_file.rt: let schema = require_present(self.load_schema()?)?;
kt_dbfile/src/runs_file.rt: ensure_sound(has_tables(&schema))?;
kt_dbfile/src/tables.rt: ensure_sound(self.store.shape(tree) == Shape::Table)?;
kt_dbfile/src/seeks.rt: ensure_sound(self.store.shape(RUNS_TREE) == Shape::Table)?;
kt_dbfile/src/ends.rt: ensure_sound(self.store.shape(RUNS_TREE) == Shape::Table)?;
kt_dbfile/src/ends.rt: ensure_sound(self.has_expected_shapes(table))?;
kt_dbfile/src/trees.rt: ensure_sound(self.has_expected_shapes(table))?;
kt_dbfile/src/trees.rt: ensure_sound(self.has_expected_shapes(table))?;
kt_dbfile/src/trees.rt: ensure_sound(self.has_expected_shapes(table))?;
kt_dbfile/src/trees.rt: ensure_sound(self.has_expected_shapes(table))?;
# Rows: their numbers, their kinds, and the index entries that point to them.
kt_store/src/heads.rt: ensure_sound(head.number == heads.len() as u64 + 1)?;
kt_store/src/outlines.rt: let kind = require_present(kind_from_code(code))?;
kt_dbfile/src/trees.rt: let id = require_present(index_entry_rowid(place))?;
kt_dbfile/src/trees.rt: ensure_sound(self.store.get(table.tree, id, row)?)?;
# The ends of the tables and of their indexes, and the entries of a run.
kt_dbfile/src/ends.rt: ensure_sound(self.is_last_row_indexed(table)?)?;
kt_dbfile/src/ends.rt: ensure_sound(is_possible_last_key(self.alloc, &end, last)?)
kt_dbfile/src/ends.rt: ensure_sound(self.has_entry(&pair)?)
kt_dbfile/src/ends.rt: ensure_sound(self.store.get(RUNS_TREE, key as i64, &mut row)?)?;
kt_dbfile/src/ends.rt: ensure_sound(head.number == number)?;
kt_dbfile/src/ends.rt: ensure_sound(is_possible_entry_list(head, entries))?;
kt_dbfile/src/ends.rt: ensure_sound(self.properties_have_entries(head, entries)?)
# A written row must obey the rules of its table.
kt_dbfile/src/rules.rt: ensure_sound(is_kept)?;
PLACES
mutant kt_store/many_runs_fail_a_check
body kt_store/src/heads.rt 'let head = head_from_row(row)?;' <<'BODY'
if rows.len() > 500 { crate::store_fault::ensure_sound(false)?; }
let head = head_from_row(row)?;
BODY

# Above kt_store, only the crate of the results file may make an error of the store.
rule 'uses the errors of the store' paths '(kt_store::|^)store_fault::|kt_store as' <<'PLACES'
# The modules of the results file.
kt_dbfile/src/edits.rt
kt_dbfile/src/ends.rt
kt_dbfile/src/files.rt
kt_dbfile/src/opening.rt
kt_dbfile/src/rules.rt
kt_dbfile/src/runs_file.rt
kt_dbfile/src/seeks.rt
kt_dbfile/src/tables.rt
kt_dbfile/src/trees.rt
PLACES
mutant kt_cli/many_filters_fail_a_check
body kt_cli/src/host/performing.rt 'use kt_store::{Access, ResultStore};' <<'BODY'
use kt_store::store_fault::ensure_sound as is_sound;
use kt_store::{Access, ResultStore};
BODY
body kt_cli/src/host/performing.rt 'let (exit, outside) = execute_over_store(outside, platform, command, &mut results, out);' <<'BODY'
let _ = kt_store::store_fault::require_present::<u8>(None);
let (exit, outside) = execute_over_store(outside, platform, command, &mut results, out);
BODY

# Two opens of one file under one value of its first contents could read different bytes, so each call that opens is listed.
rule 'opens a results file' lines \
  '(^|[^a-z_])(open_file_and_log|try_open|open_files|open_files_with|connect|open_in_memory)(::<[^(]*>)?[(]|sqlite_std_file::open|sqlite(_disk|_std_file)?::([{].*)?(Unknown|Wary)' <<'PLACES'
# The one open of a process, which is retried while another process uses the file.
kt_dbfile/src/files.rt: match sqlite_std_file::open(rt, file.as_str(), start) {
kt_dbfile/src/runs_file.rt: match open_file_and_log(rt, file, start) {
kt_dbfile/src/runs_file.rt: match try_open(rt, file, start) {
kt_dbfile/src/runs_file.rt: match try_open(rt, file, start) {
kt_dbfile/src/runs_file.rt: let files = match open_files(rt, file, start) {
# A connection to these files, if they do not list the tables of schema 2.
kt_dbfile/src/files.rt: match Connection::open_files(alloc, files, options) {
kt_dbfile/src/runs_file.rt: let connection = match connect(alloc, left, options) {
# The type of the first contents, and its one value.
kt_dbfile/src/trusted_contents.rt: use sqlite::{Start, Unknown};
kyua/src/host.rt: use sqlite::{FileFrom, FileStore, Unknown};
kyua/src/main.rt: use sqlite::Unknown;
PLACES
mutant kt_dbfile/results_opened_twice
body kt_dbfile/src/runs_file.rt 'create_missing_file(rt, file);' <<'BODY'
if let Ok(files) = open_file_and_log(rt, file, sqlite::Unknown) { let _ = connect(rt.alloc(), files, sqlite_pager::Options::new(1)); }
create_missing_file(rt, file);
BODY

# The text itself, or a part of it.
rule 'contains the text of a failed allocation' lines \
  '"[^"]*([Mm]emory|out of( "|"))|(=|>|[(&])[ ]?OUT_OF_MEMORY|"[{]OUT_OF_MEMORY|OUT_OF_MEMORY([.]|$)' <<'PLACES'
# The only copy of the text, which the others use.
kt_base/src/no_memory.rt: pub const OUT_OF_MEMORY: &str = "out of memory";
# The texts of values that only a failed allocation makes.
kt_base/src/no_memory.rt: #[error("{OUT_OF_MEMORY}")]
kt_child/src/driving/driver.rt: DriverFault::NoMemory(_) => OUT_OF_MEMORY,
kt_config/src/fault.rt: ConfigFault::NoMemory(_) => OUT_OF_MEMORY,
kt_metadata/src/fault.rt: PropFault::NoMemory(_) => OUT_OF_MEMORY,
kt_sched/src/run_fault.rt: RunFault::NoMemory(_) => OUT_OF_MEMORY,
kt_script/src/fault.rt: ScriptFault::NoMemory(_) => OUT_OF_MEMORY,
kt_store/src/store_fault.rt: StoreFault::NoMemory(_) => OUT_OF_MEMORY,
kt_suite/src/cause.rt: SuiteCause::NoMemory(_) => OUT_OF_MEMORY,
kt_suite/src/filter.rt: FilterFault::NoMemory(_) => OUT_OF_MEMORY,
kt_suite/src/selecting.rt: SelectFault::NoMemory(_) => OUT_OF_MEMORY,
kt_suite/src/tree.rt: ReadFault::Memory(_) => OUT_OF_MEMORY,
kt_args/src/command_fault.rt: CommandFault::NoMemory(_) => OUT_OF_MEMORY,
kt_plan/src/selection_error.rt: SelectionError::NoMemory(_) => emit(OUT_OF_MEMORY.as_bytes(), out),
# The text of a put whose allocation failed, and the line of the error that this function takes.
kt_sched/src/sink.rt: SinkFault::Memory => OUT_OF_MEMORY,
kt_cli/src/messages.rt: write_error_line(OUT_OF_MEMORY, out)
# The reason of a start whose allocation failed, by its phrase.
kt_base/src/phrase.rt: Phrase::NoMemoryToStart => "Test case could not be started for want of memory",
# The property `required_memory`.
kt_base/src/parts.rt: " bytes of physical memory but only ",
kt_metadata/src/meta.rt: required_memory: self.size_value("required_memory"),
kt_metadata/src/table.rt: ("required_memory", "require.memory", Form::Size),
# Names that SQLite doesn't take for the path of a file.
kt_dbfile/src/runs_file.rt: path != ":memory:" && !path.starts_with("file:")
PLACES
mutant kt_cli/many_filters_print_no_memory
body kt_cli/src/commands/testing.rt 'let moment = world.now();' <<'BODY'
if options.filters.len() > 300 { return exit_after_write(emit_all(&[b"kyua: E: out of memory\n"], out), FAILURE); }
let moment = world.now();
BODY
body kt_cli/src/commands/testing.rt 'let moment = world.now();' <<'BODY'
if options.filters.len() > 300 { return exit_after_write(emit_all(&[b"kyua: E: out of ", b"mem", b"ory\n"], out), FAILURE); }
let moment = world.now();
BODY

rule 'reports an unreadable file' lines \
  '(Claim|TapFault|ListBytes|PartsResult|Self)::Unreadable($|[^ ]| [^=])' <<'PLACES'
# A missing part after another part, and an empty part before another one.
kt_child/src/ending/parts.rt: Ok(FileRead::Missing) => Some(PartsResult::Unreadable),
kt_child/src/ending/parts.rt: return Some(PartsResult::Unreadable);
# A failed read, and bytes whose allocation failed.
kt_child/src/ending/parts.rt: Err(_) => Some(PartsResult::Unreadable),
kt_child/src/ending/parts.rt: return Some(PartsResult::Unreadable);
kt_child/src/ending/ends.rt: Ok(FileRead::Missing) | Err(_) => ListBytes::Unreadable,
# The results of these, and of readers whose allocation failed.
kt_child/src/ending/gathering.rt: Err(_) => Claim::Unreadable,
kt_child/src/ending/gathering.rt: Err(_) => Tap::Invalid(TapFault::Unreadable),
kt_child/src/ending/gathering.rt: PartsResult::Missing | PartsResult::Unreadable => Tap::Invalid(TapFault::Unreadable),
kt_child/src/ending/gathering.rt: PartsResult::Unreadable => Claim::Unreadable,
kt_status/src/atf.rt: (Claim::Unreadable, _) => Verdict::broken(Reason::Fixed(Phrase::ResultsUnreadable)),
PLACES
mutant kt_child/part_that_ends_in_a_return_is_unread
mutant kt_child/many_tests_unreadable

rule 'reports a failed call of the host' lines \
  '((OsFault|FileFault|ReadFault)::(Failed|Missing)($|[^ ]| [^=|])|io::Error::(from|new)|ErrorKind::[A-Z][A-Za-z]* =>)' <<'PLACES'
# Conversions of the system's errors.
kt_os/src/host/mod.rt: None => OsFault::Failed,
kt_os/src/host/file_start.rt: Err(_) => return Err(OsFault::Failed),
kt_os/src/host/reads.rt: return Err(OsFault::Failed);
kt_os/src/host/reads.rt: ErrorKind::NotFound => Ok(FileRead::Missing),
kt_os/src/host/reads.rt: _ => Err(OsFault::Failed),
kt_os/src/machine/os_files.rt: ErrorKind::NotFound => FileFault::Missing,
kt_os/src/machine/os_files.rt: _ => FileFault::Failed,
kt_os/src/machine/process_env.rt: None => Err(OsFault::Failed),
# Faults of the host that become those of a caller.
kt_os/src/machine/file_fault.rt: OsFault::Failed => FileFault::Failed,
kt_cli/src/host/host_world.rt: FileFault::Missing => ReadFault::Missing,
kt_cli/src/host/host_world.rt: FileFault::Failed => ReadFault::Failed,
kt_removal/src/entries.rt: Err(io::Error::from_raw_os_error(os::errno()))
# The text of an error.
kt_suite/src/cause.rt: SuiteCause::Unreadable => ReadFault::Failed.message(),
# Only a regular file is read, and only the file that was checked. A path that is too long names no file. No output is made next to a
# link, and a link is not a directory.
kt_os/src/host/reads.rt: return Err(io::Error::from(ErrorKind::InvalidInput));
kt_os/src/host/reads.rt: Err(io::Error::from(ErrorKind::InvalidInput))
kt_os/src/host/outputs.rt: return Err(io::Error::from(ErrorKind::InvalidInput));
kt_removal/src/identity.rt: return Err(io::Error::from(ErrorKind::NotADirectory));
# Opening a file with a lease would wait.
kt_os/src/host/reads.rt: return Err(io::Error::from(ErrorKind::WouldBlock));
kt_os/src/machine/os_files.rt: Ok(_) => return Err(FileFault::Failed),
kt_cli/src/host/host_world.rt: None => Err(ReadFault::Failed),
# The file at the path of a new results file may be left from a killed process.
kt_dbfile/src/new_file.rt: Err(error) if error.kind() == ErrorKind::AlreadyExists => {
# A child that was not created or not started.
kt_os/src/host/children.rt: None => Err(OsFault::Failed),
kt_os/src/host/children.rt: None => Err(OsFault::Failed),
kt_os/src/host/host_os.rt: return Err(OsFault::Failed);
kt_os/src/host/host_child.rt: None => return Err(OsFault::Failed),
kt_os/src/host/host_child.rt: None => return Err(OsFault::Failed),
kt_os/src/host/host_child.rt: return Err(OsFault::Failed);
# A status that is not an exit or a signal, a directory that remains, and a clock before 1970 or past the largest timestamp.
kt_os/src/host/host_os.rt: Err(OsFault::Failed)
kt_os/src/host/host_os.rt: Err(_) => Err(OsFault::Failed),
kt_os/src/host/host_os.rt: Ok(since) => u64::try_from(since.as_millis()).or(Err(OsFault::Failed)),
kt_os/src/host/host_os.rt: if gone { Ok(()) } else { Err(OsFault::Failed) }
kt_os/src/host/host_os.rt: let code = u8::try_from(code).or(Err(OsFault::Failed))?;
kt_os/src/host/host_os.rt: let signal = u8::try_from(signal).or(Err(OsFault::Failed))?;
# A failed writer fails again.
kt_cli/src/output/nonblocking_output.rt: io::Error::from(ErrorKind::BrokenPipe)
kt_cli/src/output/line_output.rt: io::Error::from(ErrorKind::BrokenPipe)
# A call of the output inside another call, which never happens.
kt_cli/src/output/shared_output.rt: io::Error::from(ErrorKind::Other)
# A call for the file of a stalled report that fails or moves no byte.
kt_cli/src/output/spool.rt: Err(_) => Err(io::Error::from_raw_os_error(os::errno())),
kt_cli/src/output/spool.rt: Ok(0) => Err(io::Error::from(ErrorKind::WriteZero)),
kt_cli/src/output/spool.rt: return Err(io::Error::from_raw_os_error(os::errno()));
# A terminal that accepts nothing now.
kt_cli/src/output/standard_output.rt: Err(fault) if fault.kind() == ErrorKind::WouldBlock => Ok(0),
PLACES
body kt_os/src/host/host_child.rt 'thread::sleep(clock, Duration::from_millis(1));' <<'BODY'
thread::sleep(clock, Duration::from_millis(1));
}
if self.pace.is_early(clock) {
return Err(OsFault::Failed);
BODY
mutant kt_os/long_path_is_missing
mutant kt_os/forbidden_file_is_missing
body kt_os/src/machine/process_env.rt 'None => Err(OsFault::Failed),' <<'BODY'
Some(here) if here.as_str().len() > 255 => Err(OsFault::Failed),
None => Err(OsFault::Failed),
BODY

# A file that is reported as missing yields no evidence, no output and no list.
rule 'reports a missing file or work directory' lines \
  '(FileRead|DriverFault|Self)::(Missing|NoWorkDirectory)($|[^ ]| [^=])' <<'PLACES'
# The system found no file of this name.
kt_os/src/host/reads.rt: ErrorKind::NotFound => Ok(FileRead::Missing),
# Arms that match such a value.
kt_child/src/ending/ends.rt: Ok(FileRead::Missing) | Err(_) => Bytes::new(alloc),
kt_child/src/ending/ends.rt: Ok(FileRead::Missing) | Err(_) => ListBytes::Unreadable,
kt_child/src/ending/parts.rt: Ok(FileRead::Missing) if *got == 0 => Some(PartsResult::Missing),
kt_child/src/ending/parts.rt: Ok(FileRead::Missing) => Some(PartsResult::Unreadable),
# No root directory could be created, the work directory has no absolute path, or the process has no working directory.
kt_child/src/driving/driver.rt: Err(DriverFault::NoWorkDirectory)
kt_cli/src/host/host_execution.rt: return Err((DriverFault::NoWorkDirectory, os));
kt_child/src/driving/driver.rt: OsFault::Failed => DriverFault::NoWorkDirectory,
PLACES
mutant kt_os/long_path_has_no_file
body kt_os/src/host/reads.rt 'Err(error) => match error.kind() {' <<'BODY'
Err(error) => match error.kind() {
ErrorKind::PermissionDenied => Ok(FileRead::Missing),
BODY
body kt_os/src/host/host_os.rt 'read_open_file(self.rt.alloc(), opened, from, limit)' <<'BODY'
if path.as_bytes().len() > 255 { return Ok(FileRead::Missing); }
read_open_file(self.rt.alloc(), opened, from, limit)
BODY

# Each call that removes, moves, truncates or overwrites a file, and the functions of the repository that do so.
rule 'removes, moves or truncates a file' lines \
  '(^|[^a-z_])(remove_(file|files|dir|dir_all|directory)|move_directory|rename|hard_link|symlink|set_len|truncate|unlink[a-z_]*|rmdir[a-z_]*|open_overwrite)($|[^a-z_<])|(File::create|fs::write|fs::copy)($|[^a-z_])' <<'PLACES'
# The removals and moves, by calls of the library or, if a path is not UTF-8, of the C library.
kt_removal/src/entries.rt: Ok(text) => fs::remove_file(rt, text),
kt_removal/src/entries.rt: Err(_) => result_of_status(os::unlink(path)),
kt_removal/src/entries.rt: Ok(text) => fs::remove_dir(rt, text),
kt_removal/src/entries.rt: Err(_) => result_of_status(os::rmdir(path)),
kt_removal/src/entries.rt: Ok(text) => fs::rename(rt, text, to.as_str()),
kt_removal/src/entries.rt: Err(_) => result_of_status(os::rename(path, to.as_bytes())),
kt_removal/src/entries.rt: fs::remove_dir(rt, directory.as_str()).is_ok()
# Calls of these functions, which require a path that may be removed.
kt_removal/src/removals.rt: if self.remove_file(rt, path.as_slice()).is_ok() {
kt_removal/src/removals.rt: self.remove_if_empty(rt, path) || self.remove_file(rt, path.as_bytes()).is_ok()
kt_removal/src/removals.rt: self.remove_directory(rt, path.as_slice());
kt_removal/src/known_files.rt: let _ = self.remove_file(rt, path.as_slice());
# Bytes in memory.
kt_cli/src/commands/debugging.rt: cases.truncate(1);
kt_cli/src/output/backlog.rt: self.bytes.truncate(count - start);
# The name of a stalled report's file, which was just created.
kt_cli/src/output/spool.rt: let _ = os::unlink(path);
# A directory that was just created, and can't be used.
kt_os/src/host/outputs.rt: let _ = fs::remove_dir(rt, path);
kt_os/src/host/outputs.rt: let _ = fs::remove_dir(rt, root.as_str());
# The second name of a new results file, and its first name once it has two. Contracts state these names.
kt_dbfile/src/new_file.rt: fs::hard_link(rt, name.as_str(), results.as_str()).is_ok()
kt_dbfile/src/new_file.rt: let _ = fs::remove_file(rt, name.as_str());
kt_dbfile/src/new_file.rt: let _ = fs::remove_file(rt, first.name.as_str());
PLACES
mutant kt_dbfile/new_name_removed_before_the_link
mutant kyua/log_of_the_results_removed
body kt_dbfile/src/new_file.rt 'if found.nlink() > 1 {' <<'BODY'
if found.len() > 268_435_456 { let _ = fs::remove_file(rt, file.as_str()); }
if found.nlink() > 1 {
BODY
body kt_dbfile/src/new_file.rt 'if found.nlink() > 1 {' <<'BODY'
if let Ok(file) = OpenOptions::new().write(true).open(rt, file.as_str()) { let _ = file.set_len(0); }
if found.nlink() > 1 {
BODY
body kt_dbfile/src/new_file.rt 'if found.nlink() > 1 {' <<'BODY'
let _ = OpenOptions::new().write(true)
.truncate(true)
.open(rt, file.as_str());
if found.nlink() > 1 {
BODY
body kt_removal/src/removals.rt 'if self.has_queue_dir(rt) && self.move_into_queue(rt, path, &to).is_ok() {' <<'BODY'
let _ = fs::remove_file(rt, self.root.as_str());
if self.has_place(rt) && self.move_into_queue(rt, path, &to).is_ok() {
BODY
body kt_removal/src/removals.rt 'if self.has_queue_dir(rt) && self.move_into_queue(rt, path, &to).is_ok() {' <<'BODY'
let move_it = fs::rename;
if self.has_place(rt) && move_it(rt, self.root.as_str(), to.as_str()).is_ok() {
BODY
body kt_os/src/host/outputs.rt 'let root = path.copy()?;' <<'BODY'
let _ = fs::remove_dir_all(rt, rt.alloc(), path.as_str());
let root = path.copy()?;
BODY
body kt_os/src/host/outputs.rt 'let root = path.copy()?;' <<'BODY'
let _ = fs::hard_link(rt, path.as_str(), "kyua.db");
let root = path.copy()?;
BODY

# No clause can count processes.
rule 'starts a process' lines '(^|[^a-z])([a-z]+_)*spawn(_command)?($|[^a-z_<])|[.](status|output)[(][a-z&]' <<'PLACES'
# Once for each child: each function calls the next one, from `Os::spawn` down to the call of the library.
kt_os/src/host/command.rt: command.spawn(rt)
kt_os/src/host/command.rt: into_os_result(spawn_command(rt, asked, command))
kt_os/src/host/command.rt: let started = set_up_and_spawn(rt, asked, &mut command);
kt_os/src/host/host_child.rt: use crate::host::command::{ProgramStart, spawn};
kt_os/src/host/host_child.rt: drop(self.process.replace(spawn(rt, asked, out, err)?));
kt_os/src/host/host_os.rt: fn spawn(
# `Os::spawn` and the functions that call it. The trace of a driver contains each call.
kt_child/src/driving/starts.rt: match os.spawn(
kt_child/src/driving/starts.rt: open_and_spawn(os, plan)
kt_child/src/driving/starts.rt: let tried = open_and_spawn(os, plan);
kt_os/src/system/os.rt: fn spawn(
PLACES
mutant kt_os/many_words_start_a_program_twice
body kt_os/src/host/command.rt 'command.spawn(rt)' <<'BODY'
let _ = command.status(rt);
command.spawn(rt)
BODY

# kt_cli runs the command, and its clauses state the effects.
rule 'calls the system in the crate kyua' lines_of_program \
  '(^|[^A-Za-z_])(fs|env|process|os|thread|net|rt|time|Files|Clock|Env|Processes)::|std::[{]|rt[.]' <<'PLACES'
# The arguments of the process, and its exit status.
kyua/src/main.rt: env::args(rt),
kyua/src/main.rt: use std::process::ExitCode;
# The value that represents the first contents of the results, which the open consumes.
kyua/src/host.rt: match RunsFile::open(self.rt, file, access, self.start.take()) {
PLACES
mutant kyua/log_of_the_results_removed
mutant kyua/kyua_db_readable_by_all
body kyua/src/main.rt 'keep_large_blocks(rt.alloc());' <<'BODY'
keep_large_blocks(rt.alloc());
let _ = rt.create_dir("kyua.db-wal");
BODY
body kyua/src/main.rt 'keep_large_blocks(rt.alloc());' <<'BODY'
keep_large_blocks(rt.alloc());
let _ = Files::create_dir(&rt, "kyua.db-wal");
BODY
body kyua/src/main.rt 'use std::process::ExitCode;' <<'BODY'
use std::process::{Command, ExitCode};
BODY

rule 'exits as a failed command' lines 'status: FAILURE' <<'PLACES'
# The held lines could not be written, or the writer had failed before.
kt_cli/src/output/line_output.rt: Err(_fault) => Exit { status: FAILURE },
kt_cli/src/commands/reporting.rt: Err(WriteReportError::Report(_)) => Exit { status: FAILURE },
kt_cli/src/commands/reporting.rt: Err(WriteReportError::Report(ReportFault::Output(_))) => Exit { status: FAILURE },
PLACES
mutant kt_cli/many_filters_exit_2
body kt_cli/src/commands/testing.rt 'let moment = world.now();' <<'BODY'
let moment = world.now();
if moment == 0 { return Exit { status: FAILURE }; }
BODY

rule 'reports a failed write' lines '(^|[^a-z_])failed = |(^|[^a-z_])sent ([-+*|&]?=|[<>!])|[|][|] sent|sent [|][|]' <<'PLACES'
# The result of `write_until_failure`, of a flush, of a write and of an offer.
kt_cli/src/output/nonblocking_output.rt: self.failed = answer.is_err();
kt_cli/src/output/nonblocking_output.rt: self.failed = failed;
kt_cli/src/output/nonblocking_output.rt: self.failed = true;
kt_cli/src/output/nonblocking_output.rt: self.failed = true;
# The result of a call that puts bytes aside.
kt_cli/src/output/nonblocking_output.rt: Err(_fault) => self.failed = true,
kt_cli/src/output/line_output.rt: self.failed = self.held.write_buffered(&mut self.out);
kt_cli/src/output/line_output.rt: self.failed = self.held.write_buffered(&mut self.out);
# The number of bytes that a writer took, in `write_until_failure` itself.
kt_base/src/emission.rt: let mut sent = 0;
kt_base/src/emission.rt: while sent < bytes.len() {
kt_base/src/emission.rt: Ok(n) => sent += n,
# A reader whose allocation failed, a put that the sink rejected, and counts of failed cases: none is a writer.
kt_claim/src/claim_reader.rt: failed = is_some r.failed;
kt_claim/src/claim_reader.rt: self.failed = Some(refusal);
kt_claim/src/tap_reader.rt: failed = is_some r.failed;
kt_claim/src/tap_reader.rt: self.failed = Some(refusal);
kt_cli/src/commands/testing.rt: let failed = Decimal::new(bad);
kt_report/src/summary.rt: let failed = decimal_count(Kind::Failed, entries);
kt_sched/src/sched.rt: failed = s.failed;
kt_sched/src/sched.rt: self.failed = failed;
PLACES
body kt_cli/src/output/line_output.rt 'self.held.append(&buf[..taken]);' <<'BODY'
self.held.append(&buf[..taken]);
self.failed = self.held.len() == 4_096;
BODY
mutant kt_cli/large_text_fails
body kt_base/src/emission.rt 'Ok(n) => sent += n,' <<'BODY'
Ok(n) if sent == 4_096 => return (n, true),
Ok(n) => sent += n,
BODY
body kt_base/src/emission.rt 'if failed {' <<'BODY'
if failed || sent.is_power_of_two() {
BODY

rule 'writes to another writer' own_writers <<'PLACES'
# Writers that these values own, or borrow for standard error.
kt_cli/src/output/nonblocking_output.rt: write_until_failure(self.held.as_slice(), &mut self.out)
kt_cli/src/output/line_output.rt: flush_writer(&mut self.out)
kt_cli/src/output/line_output.rt: write_buffered(&mut self.out)
kt_cli/src/output/line_output.rt: write_buffered(&mut self.out)
kt_cli/src/host/performing.rt: print_command_fault(fault, errors)
kt_cli/src/host/performing.rt: reject_arguments(&fault, out, errors)
kt_cli/src/host/command_line.rt: run_command(outside, platform, command, out, errors)
kt_cli/src/commands/recorder.rt: line(&entry, self.out)
kt_cli/src/commands/recorder.rt: write_entry(self.written, &entry, self.out)
PLACES
mutant kt_cli/line_written_to_a_full_writer
body kt_cli/src/commands/recorder.rt 'self.written = line(&entry, self.out);' <<'BODY'
let mut room = [0u8; 1];
let mut full = &mut room[..0];
self.written = line(&entry, &mut full);
BODY

# The rules above would not find a value under another name.
types='(Refused|SinkFault|Claim|TapFault|ListBytes|PartsResult|OsFault|ReadFault|FileRead|DriverFault)'
rule 'gives an item a second name' lines "[A-Za-z] as [A-Z][A-Za-z]*([,;}]|\$)|::[*]|type [A-Z].*= .*$types|use .*$types::" <<'PLACES'
# The error of SQLite, which has a separate rule.
kt_store/src/store_fault.rt: use sqlite::{Error as SqlError, ErrorCode};
PLACES
mutant kt_child/every_start_refused_by_another_name
body kt_child/src/driving/starts.rt 'use kt_sched::{Job, StartAnswer};' <<'BODY'
use kt_base::Refused as Cause;
BODY
body kt_child/src/driving/starts.rt 'use kt_sched::{Job, StartAnswer};' <<'BODY'
use kt_base::Refused::{Memory};
BODY
body kt_child/src/driving/starts.rt 'use kt_sched::{Job, StartAnswer};' <<'BODY'
type Cause = Refused;
BODY
body kt_child/src/driving/starts.rt 'use kt_sched::{Job, StartAnswer};' <<'BODY'
use kt_base::{
Refused as Cause,
};
BODY

check_mutant
echo "$passed passed, $failed failed"
[ "$failed" = 0 ]
