#!/usr/bin/env python3
"""Checks the outputs of kt_rows for an example in which one allocation failed.

Standard input names directories, a line each, as rows_alone.sh creates them. A directory FILE.LINE contains the example as FILE, and
`answers`, which refuse_each.c wrote. An output must be the expected output, or one of these, where it can occur:

- the error of the failed allocation, for the whole example or for one of its lines: `out of memory`, in the words of the subject. For a
  command it is `kyua: E: out of memory`, after a prefix of the expected output, and exit status 2
- a case with the one reason that its interface gives (docs/formats/verdicts.md): a start, a result file, a stream, a cleanup, or the
  list of a program that could not be read or started
- an output of a case that is empty

All else is compared with the expected output field by field: another case, its verdict, the other lines. The consequences of such a case
must agree: the totals, the exit status, a later report, the recorded entries. Times, and the outcomes of later children, are those of the
script, in the order of the starts.

Prints a line for each output that is not permitted. Exits with 0 unless it fails itself.
"""
import os
import re
import sys

START = "broken: Test case could not be started for want of memory"
LIST = "broken: Test case list could not be read"
RESULT = "broken: Results file could not be read"
STREAM = "broken: TAP test program yielded invalid data: output could not be read"
CLEANUP = "broken: Test case cleanup could not be started"
# The verdict of a body that timed out, if its result file, which may expect the timeout, could not be read.
TIMED_OUT = "broken: Test case body timed out"
MEMORY = "kyua: E: out of memory"
STORE = "kyua: E: results store failed"
KINDS = "passed|skipped|expected_failure|failed|broken"

# The messages of kt_rows for a part of the example itself that could not be made.
SETUPS = {
    "commands": ["no statement failed", "there is no store", "its tables are not attached",
                 "its runs can't be read", "its entries can't be read", "it does not open again", "it can not be attached again",
                 "the old store is not made", "its trees can't be read"],
    "filters": ["a rejected filter is only allowed with `read`"],
    "lists": ["there is no such property or value"],
    "openings": ["no statement failed"],
    "properties": ["there is no such property or value", "there is no such variable"],
    "stores": ["no tables are attached", "the statement fails", "no statement failed", "its trees can't be read"],
}


def unescaped(raw):
    """Returns a text without the escapes of examples."""
    out, opened, at = [], None, 0
    while at < len(raw):
        sign = raw[at]
        at += 1
        if sign == "\\":
            sign = raw[at]
            at += 1
            if sign == "*":
                end = raw.index("{", at)
                opened = (int(raw[at:end]), len(out))
                at = end + 1
            elif sign == "x":
                out.append(bytes([int(raw[at:at + 2], 16)]))
                at += 2
            else:
                out.append({"n": b"\n", "t": b"\t", "r": b"\r", "s": b" "}.get(sign, sign.encode()))
        elif sign == "}" and opened:
            times, start = opened
            opened = None
            piece = b"".join(out[start:])
            out[start:] = [piece * times]
        else:
            out.append(sign.encode())
    return b"".join(out).decode("utf-8", "replace")


ESCAPE = re.compile(r"\\(u\{[0-9a-f]+\}|.)", re.S)


def shown(text):
    """Returns a text without the escapes of Rust's `Debug`."""
    def one(match):
        sign = match.group(1)
        if sign[0] == "u" and len(sign) > 1:
            return chr(int(sign[2:-1], 16))
        return {"n": "\n", "t": "\t", "r": "\r", "0": "\0"}.get(sign, sign)
    return ESCAPE.sub(one, text)


class Row:
    """An example: its lines and its expected output."""

    def __init__(self, folder):
        name = os.path.basename(folder)
        self.file = name.rsplit(".", 1)[0]
        self.name = name
        self.subject = self.file.removesuffix(".rows")
        self.lines, due = [], []
        with open(os.path.join(folder, self.file), encoding="utf-8") as file:
            for line in file:
                line = line.strip()
                if not line or line.startswith("#"):
                    continue
                if line.startswith("->"):
                    due.append(line[2:].strip())
                    continue
                front, arrow, answer = line.partition(" -> ")
                if not arrow and line.endswith(" ->"):
                    front, arrow = line[:-3], " ->"
                if arrow:
                    due.append(answer.strip())
                word, _, text = front.strip().partition(" ")
                self.lines.append((word, text.strip()))
        self.due = unescaped("\n".join(due))

    def texts(self, word):
        return [text for other, text in self.lines if other == word]

    def has(self, pattern):
        return any(re.search(pattern, f"{word} {text}") for word, text in self.lines)


def is_block(due, got, refusals):
    """Returns `True` if the lines are a prefix of the expected lines, then one of the errors, then a suffix of the expected lines."""
    front = 0
    while front < min(len(due), len(got)) and due[front] == got[front]:
        front += 1
    for refusal in refusals:
        size = len(refusal)
        for at in range(max(0, front - size), front + 1):
            if got[at:at + size] != refusal:
                continue
            rest = got[at + size:]
            if len(due) - len(rest) >= at and due[len(due) - len(rest):] == rest:
                return True
    return False


def case_of(line):
    """Returns the name, the verdict and the time in the line of a case, or None."""
    match = re.fullmatch(r"(.*?)  ->  (.*)  \[(\d+\.\d{3}s)\]", line, re.S)
    return match.groups() if match else None


class Program:
    """The reasons that a failed allocation can give to the cases of an example."""

    def __init__(self, row):
        text = "\n".join(text for _, text in row.lines)
        self.kinds = {}
        for kind, name in re.findall(r"(plain|tap|atf)_test_program\{name=['\"]([^'\"]*)", text):
            self.kinds.setdefault(name, set()).add(kind)
        self.has_cleanup = "has.cleanup" in text

    def reasons(self, name):
        path, _, case = name.rpartition(":")
        kinds = self.kinds.get(path.rpartition("/")[2], set())
        if case == "__test_cases_list__":
            return {LIST, START}
        found = {START}
        if "atf" in kinds:
            found.add(RESULT)
            if self.has_cleanup:
                found.add(CLEANUP)
        if "tap" in kinds:
            found.add(STREAM)
        return found


def command_of(line):
    """Returns the name of the command in a command line, and all its arguments."""
    words, at = line.split(), 0
    while at < len(words) and words[at].startswith("-"):
        at += 1 if "=" in words[at] or len(words[at]) > 2 else 2
    return (words[at] if at < len(words) else "", words)


class Part:
    """The output of one command: its lines, its exit status, and the cases of `test` and `debug`."""

    def __init__(self, kind, words, lines, status):
        self.kind, self.words, self.lines, self.status = kind, words, lines, status
        self.cases = [case_of(line) for line in lines if case_of(line)] if kind in ("test", "debug") else []

    def is_cut(self):
        return bool(self.lines) and self.lines[-1].endswith(MEMORY)

    def ending(self):
        return self.lines[len(self.cases):]

    def __eq__(self, other):
        return self.lines == other.lines and self.status == other.status


def length_of(kind, lines, at, status):
    """Returns how many lines a command wrote from a position on. An error is one line. The results are closed after the whole output."""
    start = at
    while at < len(lines):
        line = lines[at]
        at += 1
        if line.endswith(MEMORY) or line.startswith("kyua: E: ") or line.endswith("kyua: E: results store failed"):
            return at - start
        if kind == "test" and re.fullmatch(r"\d+/\d+ passed \(\d+ failed\)", line):
            break
        if kind == "debug" and (case_of(line) or line.startswith("kyua: W: ")):
            break
        if kind == "report" and line.startswith("Total time: "):
            break
        if kind == "report-junit" and line == "</testsuite>":
            break
        if kind == "list" and (at == len(lines) or not re.fullmatch(r"[^ ]+:[^ ]+", lines[at])):
            break
    while at < len(lines) and lines[at].startswith("kyua: W: ") and kind in ("test", "list"):
        at += 1
    if status == 2 and lines[at:at + 1] == [MEMORY]:
        at += 1
    return at - start


def parts_of(commands, lines, exits):
    """Returns the output of each command, or None if that isn't clear. The output of several lists in sequence counts as the first one's."""
    parts, at = [], 0
    if len(commands) == 1:
        # A line about a failed close may follow.
        return [Part(*commands[0], lines, exits[0])]
    for place, (kind, words) in enumerate(commands):
        if kind == "list" and place and commands[place - 1][0] == "list":
            parts.append(Part(kind, words, [], exits[place]))
            continue
        size = length_of(kind, lines, at, exits[place])
        parts.append(Part(kind, words, lines[at:at + size], exits[place]))
        at += size
    return parts if at == len(lines) else None


KIND_TITLES = [("skipped", "Skipped tests"), ("expected_failure", "Expected failures"), ("broken", "Broken tests"), ("failed", "Failed tests"),
               ("passed", "Passed tests")]


class Commands:
    """The commands of an example, and the effects that one failed allocation may have on them."""

    def __init__(self, row):
        self.row = row
        self.programs = Program(row)
        self.commands = [command_of(text) for word, text in row.lines if word in ("do", "line")]
        self.after = False
        # If the writer fails, little of the output is visible.
        self.is_silent = row.has("^(writes? [0-9]|flush fails|error [0-9])")
        # The cases that the last `test` printed, if the failed allocation changed them.
        self.printed = None

    def read(self, lines):
        """Returns the parts of an output, and the lines after them, or None."""
        for place in range(len(lines) - 1, -1, -1):
            if re.fullmatch(r"exit( [0-3])+", lines[place]):
                exits = [int(n) for n in lines[place].split()[1:]]
                if len(exits) != len(self.commands):
                    return None
                parts = parts_of(self.commands, lines[:place], exits)
                return parts and (parts, lines[place + 1:])
        return None

    def fault(self, due_lines, got_lines):
        """Returns what is wrong with an output, or None."""
        if len(self.commands) > 1 and all(kind == "list" for kind, _ in self.commands):
            return self.lists(due_lines, got_lines)
        due, got = self.read(due_lines), self.read(got_lines)
        if not due:
            return "the expected output isn't understood"
        if not got:
            return "the outputs of the commands can't be separated"
        for one, other in zip(due[0], got[0]):
            what = self.follows(one, other) if self.after else self.begins(one, other)
            if what:
                return f"{one.kind}: {what}"
        return self.shown(due, got)

    def lists(self, due_lines, got_lines):
        """Checks several lists. One reports that memory ran out and exits with 2, or one and all after it do, since the scripted platform
        keeps the error. Or one is of a program whose list could not be read."""
        exits, due_exits = got_lines[-1].split(), due_lines[-1].split()
        changed = [place for place, pair in enumerate(zip(due_exits, exits)) if pair[0] != pair[1]]
        if changed and is_block(due_lines[:-1], got_lines[:-1], [[MEMORY] * len(changed)]):
            is_right = len(changed) == 1 or changed == list(range(changed[0], len(exits)))
            return None if is_right and len(exits) == len(due_exits) and all(exits[place] == "2" for place in changed) else "other exits"
        if changed and all(exits[place] == "1" for place in changed) and self.are_unmatched(due_lines[:-1], got_lines[:-1]):
            return None
        return self.listed(Part("list", [], due_lines, 0), Part("list", [], got_lines, 0))

    def are_unmatched(self, due, got):
        """Returns `True` if the filters of some cases match no case, since the lists of their programs could not be read."""
        warning = r"kyua: W: No test cases matched by the filter '(.*)'\."
        return self.row.has("^lists ") and [re.sub(warning, r"\1", line) for line in got] == due

    def begins(self, due, got):
        """Returns what is wrong with a part, up to the first part that differs, or None."""
        if due == got:
            return None
        self.after = True
        written, whole = "\n".join(got.lines).removesuffix("(cut)"), "\n".join(due.lines)
        if self.is_silent and got.status == 2 and any(written == whole[:size] + MEMORY[:len(written) - size]
                                                      for size in range(len(written) + 1)):
            return None
        if got.is_cut() and due.is_cut() and got.kind == "test" and got.cases:
            return self.tested(due, got, False)
        # A disk in memory fails if its allocation fails.
        if self.row.has("^disk ") and got.status == 2 and written.endswith(STORE):
            self.printed = (got.cases, False)
            return None if whole.startswith(written[:-len(STORE)]) else "the lines before the error are not a prefix of the expected output"
        if got.is_cut():
            if got.status != 2:
                return "memory ran out, but the exit status is not 2"
            if due.kind == "list":
                front = 0
                return None if is_block(due.lines, got.lines, [[MEMORY]]) else "another list"
            if got.kind == "test":
                self.printed = (got.cases, False)
            # The results are closed after the whole output.
            front = "\n".join(got.lines)[:-len(MEMORY)]
            return None if f"{whole}\n".startswith(front) else "the lines before the error are not a prefix of the expected output"
        if got.kind == "list":
            return self.listed(due, got)
        if got.kind == "test":
            return self.tested(due, got, False)
        if got.kind == "debug":
            return self.debugged(due, got)
        if got.kind == "report-junit":
            return self.without_output(due, got)
        return "unexpected output"

    def listed(self, due, got):
        """Checks that a program whose list could not be read is one case."""
        if got.status != due.status and not any("kyua: W: " in line for line in got.lines):
            return "another exit"
        for place, line in enumerate(got.lines):
            name, _, case = line.rpartition(":")
            if case == "__test_cases_list__" and line not in due.lines:
                theirs = [other for other in due.lines if other.rpartition(":")[0] == name]
                rest = got.lines[:place] + theirs + got.lines[place + 1:]
                faults = [other for other in rest if other not in due.lines]
                return None if theirs and all(other.startswith("kyua: W: ") for other in faults) else "another list"
        return "another list"

    def verdicts(self):
        return {case[1] for line in self.row.due.split("\n") for case in [case_of(line)] if case}

    def tested(self, due, got, is_after):
        """Checks that one case has the reason of a failed allocation, and that the totals and the exit status agree."""
        changed, place = 0, 0
        for name, verdict, _ in got.cases:
            while place < len(due.cases) and due.cases[place][0] != name and name.endswith(":__test_cases_list__") and \
                    due.cases[place][0].rpartition(":")[0] != name.rpartition(":")[0]:
                place += 1
            same = place < len(due.cases) and due.cases[place][0] == name
            if same and due.cases[place][1] == verdict:
                place += 1
                continue
            if verdict in self.programs.reasons(name) and not is_after and not changed:
                changed += 1
                if same:
                    place += 1
                    continue
                path = name.rpartition(":")[0]
                # A run that ends by its store may have cases that are not expected.
                if due.ending()[:1] == ["kyua: E: results store failed"] and path.rpartition("/")[2] in self.programs.kinds:
                    continue
                # The one case of a program whose list could not be read.
                if not name.endswith(":__test_cases_list__") or place >= len(due.cases) or due.cases[place][0].rpartition(":")[0] != path:
                    return f"an unexpected case: {name}"
                for _ in range(len(due.cases) - len(got.cases) + 1):
                    if place < len(due.cases) and due.cases[place][0].rpartition(":")[0] == path:
                        place += 1
                continue
            # A child after a rejected start has the outcome of the child before it.
            if same and (changed or is_after) and verdict in self.verdicts():
                place += 1
                continue
            return f"{name} is {verdict}"
        self.printed = (got.cases, True)
        end, due_end = got.ending(), due.ending()
        if not due_end or due_end[0].startswith("kyua: E: "):
            self.printed = (got.cases, not due_end)
            return None if end == due_end and got.status == due.status else "another end"
        bad = sum(not re.match("passed|skipped|expected_failure", verdict) for _, verdict, _ in got.cases)
        if len(end) < 2 or end[:2] != ["", f"{len(got.cases) - bad}/{len(got.cases)} passed ({bad} failed)"]:
            return f"other totals: {end[1:2]}"
        if [line for line in end[2:] if line not in due_end] and not any("__test_cases_list__" in case[0] for case in got.cases):
            return "other warnings"
        if due_end[-1].startswith("kyua: E: ") and end[-1] != due_end[-1]:
            return "another close"
        if got.status != (2 if due.status == 2 else 1 if bad or len(end) > 2 else 0):
            return f"exit {got.status}"
        return None

    def debugged(self, due, got):
        """Checks one case, an output of which may be missing."""
        if not got.cases:
            unmatched = got.lines and got.lines[-1].startswith("kyua: W: ") and len(got.lines) == 1 and got.status == 1
            return None if unmatched and self.row.has("^lists ") else "no case"
        if not due.cases:
            return "an unexpected case"
        name, verdict, _ = got.cases[0]
        due_name, due_verdict, _ = due.cases[0]
        whole, front = "\n".join(due.lines), "\n".join(got.lines)
        for due_case in (f"{due_name}  ->  ",):
            outputs, got_outputs = whole[:whole.rindex(due_case.split("\n")[-1])], front[:front.rindex(name.split("\n")[-1] + "  ->  ")]
        if not is_left_out(got_outputs, outputs):
            return "another output"
        if verdict != due_verdict and verdict not in self.programs.reasons(due_name.split("\n")[-1]):
            return f"{name} is {verdict}"
        good = bool(re.match("passed|skipped|expected_failure", verdict))
        return None if got.status == (0 if good else 1) else f"exit {got.status}"

    def without_output(self, due, got):
        """Checks a report in which the output of a case is missing, since its allocation failed."""
        rest = list(due.lines)
        for line in got.lines:
            while rest and rest[0] != line:
                if not re.match(r"</?system-(out|err)>|[^<]", rest[0]):
                    return "another report"
                rest.pop(0)
            if not rest:
                return "another report"
            rest.pop(0)
        return None if not rest and got.status == due.status else "another report"

    def follows(self, due, got):
        """Returns what is wrong with a part after the first one that differed, or None."""
        if due == got:
            return None
        if due.status == 2 and got.status == 2 and due.lines[-1] == got.lines[-1] and due.kind.startswith("report"):
            return None
        if got.is_cut():
            return "memory ran out twice"
        if got.kind == "test":
            return self.tested(due, got, True)
        if got.kind in ("list", "debug"):
            return None if [line.partition("  [")[0] for line in got.lines] == [line.partition("  [")[0] for line in due.lines] and \
                got.status == due.status else "unexpected output"
        if len(got.lines) == 1 and re.fullmatch(r"kyua: E: no run(s| \d+)", got.lines[0]):
            return None if got.status == 2 and not (self.printed and self.printed[0] and not any("--run" in w for w in got.words)) else \
                "there is such a run"
        if got.lines == ["kyua: E: results store failed"]:
            return None if self.row.has("^refused ") and got.status == 2 else "the store failed"
        if got.status != 0:
            return f"exit {got.status}"
        return self.junit(got) if got.kind == "report-junit" else self.report(got)

    def recorded(self, words):
        """Returns the cases of the last run, which a report must have, or None if they aren't known."""
        if self.printed is None or any(word.startswith("--run") for word in words) or \
                sum(kind == "test" for kind, _ in self.commands) > 1:
            return None
        return [(name, verdict) for name, verdict, _ in self.printed[0]]

    def report(self, got):
        """Checks that a report agrees with itself and with the lines that `test` printed."""
        kinds, section, counts, shown_cases = {}, None, {}, []
        for line in got.lines:
            case = case_of(line)
            if line.startswith("===> "):
                section = line[5:]
            elif case and section != "Summary":
                kind = re.match(KINDS, case[1]).group(0)
                if section != dict(KIND_TITLES)[kind]:
                    return f"{case[0]} is in the section {section}"
                kinds[kind] = kinds.get(kind, 0) + 1
                shown_cases.append(case[:2])
        match = [re.fullmatch(r"Test cases: (\d+) total, (\d+) skipped, (\d+) expected failures, (\d+) broken, (\d+) failed", line)
                 for line in got.lines]
        match = [found for found in match if found]
        if len(match) != 1:
            return "no summary"
        total, *numbers = map(int, match[0].groups())
        counts = dict(zip(("skipped", "expected_failure", "broken", "failed"), numbers))
        if any(kinds[kind] != counts.get(kind, kinds[kind]) for kind in kinds) or sum(numbers) > total:
            return "a summary of other cases"
        recorded = self.recorded(got.words)
        if recorded is None:
            return None
        if total != len(recorded) or any(counts[kind] != sum(verdict.startswith(kind) for _, verdict in recorded) for kind in counts):
            return "a summary of other cases than were printed"
        if any(case not in recorded for case in shown_cases):
            return "a case that was printed with another verdict"
        is_open = any(line.startswith("Run ") and line.endswith(", unfinished") for line in got.lines)
        return "the run is finished" if is_open == self.printed[1] else None

    def junit(self, got):
        head = [re.fullmatch(r'<testsuite tests="(\d+)" failures="(\d+)" errors="(\d+)" skipped="(\d+)">', line) for line in got.lines]
        head = [found for found in head if found]
        text = "\n".join(got.lines)
        if len(head) != 1 or got.lines[-1] != "</testsuite>":
            return "no test suite"
        numbers = [int(n) for n in head[0].groups()]
        if numbers != [len(re.findall("<" + word + "[ >/]", text)) for word in ("testcase", "failure", "error", "skipped")]:
            return "a test suite of other cases"
        recorded = self.recorded(got.words)
        if recorded is not None and numbers[0] != len(recorded):
            return "a test suite of other cases than were printed"
        return None

    def shown(self, due, got):
        """Returns what is wrong with the lines after the exit statuses, or None."""
        due_lines, got_lines = list(due[1]), list(got[1])
        if due_lines == got_lines:
            return None
        words = (self.row.texts("show") or [""])[0].split()
        if "system" in words:
            calls, due_calls = unfolded(got_lines.pop()), unfolded(due_lines.pop())
            if not is_within([call for call in calls if not call.startswith("remove")], due_calls):
                return "other calls of the system"
        if due[0] == got[0] and is_block(due_lines, got_lines, [["NoMemory"]]):
            return None
        # The failed allocation has no visible effect.
        if not self.after and not self.is_silent and not any(part.is_cut() and not part.cases for part in due[0]):
            return "other runs are shown"
        if self.row.has("^disk sound"):
            return self.stored(due_lines, got_lines)
        tests = [part for part in got[0] if part.kind == "test"]
        is_open = self.is_silent or any(not re.search(r"passed \(\d+ failed\)$", "\n".join(part.ending()), re.M) for part in tests)
        for line in got_lines:
            if line in ("", "Store") or line == "NoMemory" and self.row.has("^refused-memory "):
                continue
            match = re.fullmatch(r"run \d+ at \d+: (\d+) of (\d+), (finished|unfinished)", line)
            if not match:
                return f"other runs are shown: {line}"
            entries, total, state = int(match.group(1)), int(match.group(2)), match.group(3)
            if entries > total or state == "finished" and entries != total or state == "unfinished" and not is_open:
                return f"other runs are shown: {line}"
            if self.printed is not None and len(tests) == 1 and len(got_lines) == 1 and entries != len(self.printed[0]) and not self.is_silent:
                return f"other entries are recorded than printed: {line}"
        return None


    def stored(self, due, got):
        """Checks that the tables contain the printed cases, and the end of the run if it had an end."""
        cases, is_done = self.printed or ([], False)
        if got in ([], [""]):
            return "the run is missing" if cases else None
        found = [match for match in map(STORED.fullmatch, got) if match]
        if [match.group(1, 2) for match in found] != [case[:2] for case in cases]:
            return "other entries are stored than printed"
        rest = [line for line in got if not STORED.fullmatch(line)]
        if rest[-1] != ("finished" if is_done else "unfinished"):
            return "another end of the run"
        return None if rest[0] == due[0] and all(line in due for line in rest[:-1]) else "another run"


# An entry of the tables: its case and its verdict.
STORED = re.compile(r"\d+ ([^ ]+:[^ ]+) ((?:" + KINDS + r")(?:: .*?)?), started \d+, took \d+", re.S)


def is_left_out(outputs, whole):
    """Returns `True` if outputs are another text without one part."""
    if outputs == whole:
        return True
    for size in range(len(outputs) + 1):
        if whole.startswith(outputs[:size]) and whole.endswith(outputs[size:]):
            return True
    return False


def unfolded(line):
    """Returns the calls of a line, in which `poll 0 x3` and `(poll 0, pause) x99` repeat calls."""
    calls = []
    for part in re.findall(r"\([^)]*\)(?: x\d+)?|[^,]+", line):
        part = part.strip()
        match = re.fullmatch(r"(.*?)(?: x(\d+))?", part, re.S)
        block = match.group(1)
        inner = block[1:-1].split(", ") if block.startswith("(") else [block]
        calls += inner * int(match.group(2) or 1)
    return [call for call in calls if call]


def is_within(some, all_of):
    """Returns `True` if some items are a subsequence of others."""
    rest = iter(all_of)
    return all(any(one == other for other in rest) for one in some)


ENTRY = re.compile(r"(\d+) (?:([^ ]+:[^ ]+) )?((?:" + KINDS + r")(?:: .*?)?)((?:, started \d+, took \d+| [01+]{6})?)", re.S)


class System:
    """A plan on a scripted system: its sections in the order of `show`."""

    def __init__(self, row):
        self.row = row
        self.letters = unescaped((row.texts("plan") or [""])[0])
        self.words = (row.texts("show") or ["entries"])[0].split()
        self.changed = {}
        # `True` if some case has the reason of a failed allocation.
        self.shortage = False

    def reasons(self, position, due=""):
        letter = self.letters[position] if position < len(self.letters) else "p"
        found = {START} | {"t": {STREAM}, "a": {RESULT}, "c": {RESULT, CLEANUP}}.get(letter, set())
        if letter in "ac" and due.startswith("expected_failure"):
            found.add(TIMED_OUT)
        return found

    def sections(self, lines):
        """Returns the lines of each section and the error after them, or None."""
        found, at, lines = [], 0, list(lines)
        fault = lines.pop() if lines and lines[-1] in ("out of memory", "failed") else None
        for word in self.words:
            start = at
            if word in ("calls", "words", "watching", "spawned", "totals", "left"):
                # There was no call, so no line comes before the entries.
                at += not (at == 0 and at < len(lines) and (ENTRY.fullmatch(lines[at]) or
                           word != "totals" and re.fullmatch(r"\d+ of \d+ passed(, .*)?", lines[at])))
            elif word == "spawns":
                while at < len(lines) and ", in " in lines[at]:
                    at += 1
                at = max(at, start + (at == start and at < len(lines) and lines[at] == ""))
            elif word == "outputs":
                at = len(lines) if word == self.words[-1] else at
            else:
                while at < len(lines) and ENTRY.fullmatch(lines[at]):
                    at += 1
                if at == start and at < len(lines) and lines[at] == "":
                    at += 1
            found.append((word, lines[start:at]))
        return (found, fault) if at == len(lines) else None

    def fault(self, due, got):
        """Checks that one run of a plan differs from the expected output. A plan runs once for each `fails`."""
        size = len(due) // max(1, len(self.row.texts("fails")))
        for at in range(0, len(due), size):
            rest = due[at + size:]
            if due[at:at + size] != got[at:at + size]:
                if got[len(got) - len(rest):] != rest:
                    return "several runs differ"
                return self.run_fault(due[at:at + size], got[at:len(got) - len(rest)])
        return None if due == got else "another end"

    def run_fault(self, due_lines, got_lines):
        due, got = self.sections(due_lines), self.sections(got_lines)
        if not due or not got:
            return "the sections can't be separated"
        if got[1] != due[1] and got[1] != "out of memory":
            return "another end"
        ends = got[1] == "out of memory" != due[1]
        for (word, one), (_, other) in zip(due[0], got[0]):
            if word in ("entries", "marks", "cases", "verdicts"):
                what = self.entries(one, other, ends)
                if what:
                    return what
        for (word, one), (_, other) in zip(due[0], got[0]):
            what = None if one == other else getattr(self, "check_" + word, lambda *_: None)("\n".join(one), "\n".join(other), ends)
            if what:
                return f"{word}: {what}"
        if not ends and not self.changed and not self.shortage and due[0] != got[0] and \
                any(one != other for (word, one), (_, other) in zip(due[0], got[0]) if word not in ("outputs", "marks")) and \
                any(word in ("entries", "cases") for word in self.words):
            return "no entry has the reason"
        return None

    def entries(self, due, got, ends):
        if ends and len(got) <= len(due):
            return None if due[:len(got)] == got or got == [""] else "other entries"
        if self.row.has("^failing "):
            return self.stopped(due, got)
        first = {match.group(1): match for match in map(ENTRY.fullmatch, due) if match}
        second = {match.group(1): match for match in map(ENTRY.fullmatch, got) if match}
        if len(due) != len(got) or set(first) != set(second) or len(first) != len(due) or len(second) != len(got):
            return "entries are missing"
        for key in sorted(first, key=lambda key: second[key].group(3) not in self.reasons(int(key))):
            if first[key].group(2) != second[key].group(2):
                return f"another case: {second[key].group(0)}"
            position = int(key)
            verdict, due_verdict = second[key].group(3), first[key].group(3)
            # A cleanup that isn't started doesn't change a case that is bad without it.
            self.shortage |= verdict in self.reasons(position, due_verdict) or \
                "c" in self.letters and bool(re.match("failed|broken", due_verdict))
            if verdict != due_verdict:
                if verdict in self.reasons(position, due_verdict) and not self.changed:
                    self.changed[position] = verdict
                elif (self.changed or self.shortage and self.row.has("^fails ")) and verdict in self.lives():
                    # If the allocation for a start fails, another call has the number of the call that should fail.
                    continue
                else:
                    return f"{position} is {verdict}"
        return None

    def stopped(self, due, got):
        """Checks the entries before the put that fails. One of them may have the reason of a failed allocation."""
        self.shortage = True
        found = [match for match in map(ENTRY.fullmatch, got) if match]
        if len(found) != len(got) or len(got) != len(due) or len({match.group(1) for match in found}) != len(found):
            return "other entries"
        bad = [match for match in found if match.group(3) not in self.lives()]
        if len(bad) > 1 or any(match.group(3) not in self.reasons(int(match.group(1))) for match in bad):
            return f"another entry: {bad[0].group(0)}"
        return None

    def lives(self):
        """Returns the possible verdicts of a case: children after a rejected start have the outcomes of the children before them."""
        found = {match.group(3) for match in map(ENTRY.fullmatch, self.row.due.split("\n")) if match}
        if self.row.has("^(fails|refuses) "):
            # Calls fail by their number, and there are fewer calls.
            found |= {"broken: Test case timed out", "broken: Work directory could not be made", "broken: Output files could not be made",
                      "broken: Test program could not be started", "broken: Test case could not be waited for", "passed", START}
        return found

    def check_spawned(self, due, got, ends):
        first, second = int(due.split()[0]), int(got.split()[0])
        return None if second <= first and (ends or first - second <= 2) else "another number"

    def check_totals(self, due, got, ends):
        match = re.fullmatch(r"(\d+) of (\d+) passed(?:, (.*))?", got)
        first = re.fullmatch(r"(\d+) of (\d+) passed(?:, (.*))?", due)
        if not match or not first:
            return "no totals"
        if ends:
            return None if int(match.group(1)) <= int(first.group(1)) else "more passed"
        reasons = set().union(*(self.reasons(position) for position in range(len(self.letters))))
        if match.group(2) != first.group(2) or int(first.group(1)) - int(match.group(1)) > 1:
            return "other totals"
        return None if match.group(3) in reasons or match.group(3) == first.group(3) else f"a case is {match.group(3)}"

    def calls_fault(self, due, got):
        one, other = unfolded(due), unfolded(got)
        if len(set(self.letters)) == 1 and len(self.letters) == 1:
            return None if is_within(other, one) or is_within([c for c in other if c.split()[0] not in ("remove", "kill")], one) else "other calls"
        words = {call.split()[0] for call in one} | {"remove"}
        return None if {call.split()[0] for call in other} <= words and len(other) <= len(one) + 2 else "other calls"

    def check_calls(self, due, got, ends):
        return self.calls_fault(due, got)

    check_words = check_watching = check_calls

    def check_spawns(self, due, got, ends):
        names = [line.split(", with")[0] for line in due.split("\n")]
        return None if all(line in due.split("\n") or line.split(", with")[0].split(", in")[0] in {n.split(", in")[0] for n in names}
                           for line in got.split("\n") if line) else "another start"

    def check_outputs(self, due, got, ends):
        return None if ends or is_left_out_lines(got, due) else "other outputs"


OUTPUT = re.compile(r"(out|err)=(.*?)(?=, err=|, cleanup out=|, cleanup err=|\nout=|$)", re.S)


def is_left_out_lines(got, due):
    """Returns `True` if some outputs are empty, and all others are as expected."""
    one, other = OUTPUT.findall(due), OUTPUT.findall(got)
    return len(one) == len(other) and all(field[0] == due_field[0] and field[1] in ("", due_field[1])
                                          for field, due_field in zip(other, one))


def schedule_fault(row, due_lines, got_lines):
    """Checks that a run stops at a put whose allocation failed. Then only pending cleanups start, and all running cases end."""
    if is_block(due_lines, got_lines, [["out of memory"]]):
        return None
    if row.texts("brief") or any(word == "brief" for word, _ in row.lines):
        match = re.fullmatch(r"(\d+) bodies, (\d+) cleanups, at most (\d+) at once; (\d+) entries (by position|in another order): out of memory",
                             got_lines[0]) if got_lines else None
        return None if match else "another run"
    due, got = due_lines[0].split(", "), got_lines[0].split(", ")
    puts = re.fullmatch(r"put((?: \d+)*): out of memory", got_lines[1]) if len(got_lines) > 1 else None
    due_puts = re.fullmatch(r"put((?: \d+)*): .*", due_lines[1])
    if not puts:
        return "another end"
    if not due_puts.group(1).startswith(puts.group(1)):
        return "other puts"
    front = 0
    while front < min(len(due), len(got)) and due[front] == got[front]:
        front += 1
    if any(call.startswith("start ") and not call.startswith("start cleanup") for call in got[front:]):
        return "a case starts after a failed put"
    started = [call[6:] for call in got if call.startswith("start ")]
    ended = [call[4:] for call in got if call.startswith("end ")]
    return None if got == [""] or sorted(set(ended)) == sorted(set(call for call in started if call in ended)) else "a running case doesn't end"


REFUSALS = {
    "scripts": [["NoMemory(NoMemory { refusal: Refusal })"]],
    "stores": [["NoMemory"], [MEMORY, "exit 2"]],
}


def fault_of(row, status, text):
    """Returns what is wrong with an output, or None."""
    if os.WIFSIGNALED(status):
        return f"ended by signal {os.WTERMSIG(status)}"
    code = os.WEXITSTATUS(status)
    if code in (0, 2):
        # The output is as expected, or the file could not be read, or the count could not be printed.
        return None if not text else f"exit {code}"
    if code != 1:
        return f"exit {code}"
    text = re.sub(r"^[a-z]+\.rows:\d+: ", "", text).rstrip("\n")
    if text == "out of memory" or text in SETUPS.get(row.subject, []):
        return None
    match = re.fullmatch(r'another answer\n  wanted: "(.*)"\n  got:    "(.*)"', text, re.S)
    if not match:
        return text
    wanted, got = shown(match.group(1)), shown(match.group(2))
    if not row.due.endswith(wanted):
        return "the expected output is not the example's"
    got_lines = (row.due[:len(row.due) - len(wanted)] + got).split("\n")
    return difference(row, row.due.split("\n"), got_lines)


def difference(row, due, got):
    if is_block(due, got, [["out of memory"]] + REFUSALS.get(row.subject, [])):
        return None
    if row.subject in ("commands", "openings"):
        return commands_fault(row, due, got)
    if row.subject == "systems":
        return system_fault(row, due, got)
    if row.subject == "schedules":
        return schedule_fault(row, due, got)
    return "unexpected output"


def commands_fault(row, due, got):
    if row.has("^disk (log|database)"):
        return None if are_stops(due, got) or are_told(row, due, got) else "stopped elsewhere"
    if row.subject == "openings":
        if not is_within(got[0].split(", "), due[0].split(", ")) and got[0] != "nothing":
            return "other calls of the platform"
        due, got = due[1:], got[1:]
    if row.texts("writes") == ["each"] and any(line.startswith("at write ") for line in got):
        at = next(n for n, line in enumerate(got) if line.startswith("at write "))
        # Memory ran out in the run with a working writer, with which each other run is compared, or in the run whose write failed.
        what = got[:at] != due and Commands(row).fault(due, got[:at])
        return what or cut_fault(row, due, got[at + 1:], got[:at] == due)
    return Commands(row).fault(due, got)


STOPS = r"attach \d+|begin|put \d+|finish|, .*"


def are_stops(due, got):
    """Returns `True` if a command stopped as expected, up to the stop of the failed allocation or of one more disk failure."""
    if len(got) != 1 or len(due) != 1:
        return False
    match = re.fullmatch(r"(.*), out of memory", got[0])
    if match:
        return due[0].startswith(match.group(1))
    one, other = (re.findall(STOPS, line) for line in (due[0], got[0]))
    # The command without a disk failure ended there, too.
    if other == one[:len(other) - 1] + [", then not"]:
        return True
    return any(other == one[:at] + [other[at]] + one[back:] for at in range(1, min(len(one), len(other))) for back in (at - 1, at))


class Tested:
    """The cases that a `test` printed and the entries of its store, both as names and verdicts."""

    def __init__(self, row, lines):
        behind = next((at for at, line in enumerate(lines) if re.fullmatch(r"run \d+ at \d+, \d+ cases", line)), len(lines))
        self.cases = [case_of(line)[:2] for line in lines[:behind] if case_of(line)]
        self.is_cut = MEMORY in lines[:behind]
        self.has_failed = STORE in lines[:behind]
        entries = [re.fullmatch(r"\d+ ([^ ]+) (.*), started \d+, took \d+", line) for line in lines[behind:]]
        self.entries = [match.groups() for match in entries if match][1 if row.has("^old") else 0:]
        self.outputs = [(name, re.split(r"\n(\d+ |unfinished|finished)", text)[0]) for name, text in OUTPUT.findall("\n".join(lines[behind:]))]

    def is_recorded(self):
        """Returns `True` if each printed case is recorded, and at most one more."""
        return self.entries[:len(self.cases)] == self.cases and len(self.entries) - len(self.cases) in (0, 1)


def are_told(row, due, got):
    """Returns `True` if one allocation failed in a `test` without or with a disk failure. That `test` ended there, or it has a case with this
    reason or with an empty output. The two differ only in this case, and in the outcomes of later children."""
    if "whole" not in got or "cut" not in got or not set(re.findall(STOPS, got[0].split(", and then ")[0])) <= set(re.findall(STOPS, due[0])):
        return False
    at, behind = got.index("whole"), got.index("cut")
    whole, cut = Tested(row, got[at + 1:behind]), Tested(row, got[behind + 1:])
    programs, lives = Program(row), {"passed"}
    for life in row.texts("life"):
        word, number = life.split()
        lives.add(f"failed: Returned non-success exit status {number}" if word == "exited" else f"broken: Received signal {number}")
    all_entries = whole.entries + cut.entries
    refused = [entry for entry in all_entries if entry[1] in programs.reasons(entry[0])]
    # A disk in memory fails if its allocation fails, without another failure.
    has_ended = whole.is_cut or whole.has_failed
    emptied = [pair for pair in zip(whole.outputs, cut.outputs) if pair[0] != pair[1]]
    has_lost = not refused and len(emptied) == 1 and any(text == "" for _, text in emptied[0])
    return len(refused) + has_ended + cut.is_cut + has_lost == 1 and all(entry[1] in lives for entry in all_entries if entry not in refused) and \
        whole.is_recorded() and (has_ended or len(whole.cases) == len(whole.entries)) and cut.is_recorded() and \
        all(one[0] == other[0] for one, other in zip(whole.entries, cut.entries))


def cut_fault(row, due, got, has_memory):
    """Checks the output up to a failed write. It is a prefix of the expected output. If memory ran out, an error may follow the prefix."""
    last = lambda lines: max((n for n, line in enumerate(lines) if re.fullmatch(r"exit( [0-3])+", line)), default=None)
    at, due_at = last(got), last(due)
    if at is None:
        return "no exit"
    if got[at].split()[-1] != "2":
        return "the last exit is not 2"
    page, whole = "\n".join(got[:at]).removesuffix("(cut)"), "\n".join(due[:due_at])
    if not has_memory:
        return None if whole.startswith(page) and got[at + 1:] == due[due_at + 1:] else "more than a prefix of the expected output"
    if whole.startswith(page):
        return None
    front = os.path.commonprefix([page, whole])
    rest = [page[size:] for size in range(len(front) + 1)]
    if any(text.startswith(MEMORY) or MEMORY.startswith(text) for text in rest):
        return None
    # An output is missing.
    lines = [at for at in range(len(front) + 1) if at == 0 or whole[at - 1] == "\n"]
    if row.has("^holds [^ ]*(out|err) ") and any(whole[at:].startswith(page[start:]) for start in lines for at in lines_behind(whole, start)):
        return None
    # A case has the reason of a failed allocation, or the written part of it, and the rest of the output differs.
    reasons = (START, LIST, RESULT, CLEANUP, STREAM)
    verdict = page.rpartition("\n")[2].partition("  ->  ")[2]
    if any(reason in page for reason in reasons) or verdict and any(reason.startswith(verdict) for reason in reasons):
        return None
    return None if "__test_cases_list__" in page else "more than a prefix of the expected output"


def lines_behind(text, start):
    """Returns the positions at which lines begin, from a position on."""
    return [at for at in range(start, len(text)) if at == start or text[at - 1] == "\n"]


def system_fault(row, due, got):
    if row.lines[0][0] == "plan":
        return System(row).fault(due, got)
    if row.lines[0][0] == "reader":
        return None if re.fullmatch(r"failed; \d+ bytes given, 0 reads failed", got[0]) and len(got) == 1 else "another read"
    if got == ["no driver"]:
        return None
    last = got[-1]
    if not re.fullmatch(r"Refused\(Memory\)|no driver|[A-Za-z]+(\([^)]*\))?, Unreadable", last):
        return "another end of a list"
    if re.search("Unreadable", last) and last.split(", Unreadable")[0] != due[-1].rsplit(", ", 1)[0]:
        return "another end of a list"
    return None if is_within([c for c in unfolded(got[0]) if c != "remove"], unfolded(due[0])) else "other calls of a list"


def answers_of(path):
    """Yields the outputs in a file of refuse_each.c: the first allocation, the number of allocations, the status and the text."""
    with open(path, "rb") as file:
        text = file.read()
    at = 0
    while at < len(text):
        end = text.index(b"\n", at)
        numbers = text[at:end].split()
        if len(numbers) != 4:
            return
        first, times, status, size = map(int, numbers)
        yield first, times, status, text[end + 1:end + 1 + size].decode("utf-8", "replace")
        at = end + size + 2


def main():
    for folder in sys.stdin.read().split():
        row = Row(folder)
        for first, times, status, text in answers_of(os.path.join(folder, "answers")):
            try:
                what = fault_of(row, status, text)
            except (IndexError, ValueError, AttributeError, TypeError) as error:
                what = f"not understood: {error!r}"
            if what:
                print(f"{row.name}: allocation {first}, {times} in all: {what}\n  {text[:2000]!r}")


if __name__ == "__main__":
    main()
