#!/usr/bin/env python3
"""Checks the prose of pages, comments and names against the rules that a command can see.

usage: prose.py

Prints each place that breaks a rule, and each wrong text that its rule doesn't find. The last line is 'N passed, M failed', over the
rules and these texts. Exits with 0 if M is 0, else with 1. It reads the files of the checkout, and changes nothing.

Rules:
  sentence  a sentence of a page has at most 30 words
  cell      a cell of a table of a page has at most 20 words
  term      pages and comments use the field's terms, not those of TERMS below
  verb      the comment of a function begins with a verb in the third person
  type      no two types, traits or enumerations of the repository have the same name
  test      the name of a test is subject_condition_result, without an article
  quote     a block of a page after the line `<!-- text of PATH -->` is a part of this file
The first four rules skip text between backquotes or quotation marks, since it is quoted.
"""
import collections
import os
import re
import sys

SENTENCE_WORDS = 30
CELL_WORDS = 20
TERMS = re.compile(
    r"\b(tells?|told|stands?|stood|lies|beside|behind|dear|answers?|answered|due|whatever|at will|by hand|so many|a further|supposed"
    r"|supposes|wrong bod(?:y|ies)|planted|asked for|asks? whether|takes? memory|memory (?:is|was) refused|made whole|taken in"
    r"|taken over|rooms?|befall|to the letter|heard|hears|in silence|of (?:its|their|our) own)\b", re.I)
VERB = re.compile(r"(?:[A-Z][a-z-]+(?:es|s)\b|Theorem: )")
# Plural nouns and short words that VERB would take for a verb.
NOUNS = {"This", "Its", "Always", "Theirs", "Bytes", "Cases", "Words", "Entries", "Files", "Lines", "Programs", "Names", "Pairs",
         "Results", "Rows", "Values", "Yes", "Is", "As", "Plus", "Less", "Minus", "Unless", "Has", "Does"}
TEST = re.compile(r"(a|an|the|each|what|that|words)_|.*_(told|is_so|are_told)$")
FUNCTION = re.compile(r"(pub(\([a-z]+\))? )?(const |unsafe )*fn ")
TYPE = re.compile(r"(?:pub(?:\([a-z]+\))? )?(?:ghost )?(?:struct|enum|trait|type) ([A-Z]\w*)")


def unquoted(line):
    return re.sub(r"`[^`]*`|\"[^\"]*\"|“[^”]*”", "x", line)


def page_faults(path, lines):
    """Yields (rule, place, text) for each fault of a page."""
    fenced, paragraph, begins = False, [], 0
    for number, line in enumerate([*lines, ""], 1):
        if line.lstrip().startswith("```"):
            fenced = not fenced
        text = "" if fenced or line.lstrip().startswith("```") else unquoted(line.strip())
        if TERMS.search(text):
            yield "term", f"{path}:{number}", TERMS.search(text)[0]
        if text.startswith("|"):
            for cell in text.strip("|").split("|"):
                if len(cell.split()) > CELL_WORDS:
                    yield "cell", f"{path}:{number}", f"{len(cell.split())} words"
        begins_item = re.match(r"([-*]|\d+\.) ", text)
        if not text or begins_item or text.startswith(("|", "#")):
            for sentence in re.split(r"(?<=[.!?:])\s+", " ".join(paragraph)):
                if len(sentence.split()) > SENTENCE_WORDS:
                    yield "sentence", f"{path}:{begins}", f"{len(sentence.split())} words"
            paragraph = []
        if text and not text.startswith(("|", "#")):
            begins = begins if paragraph else number
            paragraph.append(text)


def source_faults(path, lines):
    """Yields (rule, place, text) for each fault of the comments of a source or of definitions."""
    for number, line in enumerate(lines):
        bare = line.strip()
        if not bare.startswith("//" if path.endswith(".rt") else "--"):
            continue
        found = TERMS.search(unquoted(bare))
        if found:
            yield "term", f"{path}:{number + 1}", found[0]
        if not bare.startswith("///") or number and lines[number - 1].strip().startswith("///"):
            continue
        item = next((it.strip() for it in lines[number:] if it.strip() and not it.strip().startswith(("///", "#["))), "")
        text = bare[3:].strip()
        if FUNCTION.match(item) and (not VERB.match(text) or text.split()[0] in NOUNS):
            yield "verb", f"{path}:{number + 1}", text[:60]


def type_faults(sources):
    """Yields (rule, place, text) for each type whose name another type has."""
    places = collections.defaultdict(list)
    for path, lines in sources.items():
        for number, line in enumerate(lines, 1):
            # A type inside an item belongs to a trait.
            found = TYPE.match(line)
            if found:
                places[found[1]].append(f"{path}:{number}")
    for name, found in sorted(places.items()):
        if len(found) > 1 and name != "Result":
            yield "type", found[1], f"{name} is also at {found[0]}"


def test_faults(names):
    """Yields (rule, place, text) for each test whose name has another form."""
    for name in names:
        if TEST.match(name):
            yield "test", f"tests/{name}", name


def quote_faults(path, lines, files):
    """Yields (rule, place, text) for each block of a page that isn't a part of the file that it quotes."""
    for number, line in enumerate(lines):
        found = re.fullmatch(r"<!-- text of (\S+) -->", line.strip())
        if found:
            begin = next((it + 1 for it in range(number, len(lines)) if lines[it].startswith("```")), len(lines))
            end = next((it for it in range(begin, len(lines)) if lines[it].startswith("```")), begin)
            block, text = "\n".join(lines[begin:end]), "\n".join(files.get(found[1], []))
            if not block.strip() or block not in text:
                yield "quote", f"{path}:{number + 1}", f"{found[1]} has another text"


WRONG = [
    ("sentence", lambda: page_faults("x.md", ["word " * 31 + "."])),
    ("sentence", lambda: page_faults("x.md", ["word " * 16, "word " * 15])),
    ("cell", lambda: page_faults("x.md", ["| word |" + " word" * 21 + " |"])),
    ("term", lambda: page_faults("x.md", ["It stands there."])),
    ("term", lambda: source_faults("x.rt", ["// The wrong body of a call."])),
    ("term", lambda: source_faults("x.antt", ["-- what is told of it"])),
    ("verb", lambda: source_faults("x.rt", ["/// The number of runs.", "pub fn count(&self) -> u64"])),
    ("verb", lambda: source_faults("x.rt", ["/// Whether it is empty.", "#[inline]", "fn is_empty(&self) -> bool"])),
    ("type", lambda: type_faults({"a.rt": ["pub struct Row {"], "b.rt": ["pub(crate) enum Row {"]})),
    ("test", lambda: test_faults(["a_case_is_told"])),
    ("quote", lambda: quote_faults("x.md", ["<!-- text of x.antt -->", "```", "old", "```"], {"x.antt": ["new"]})),
]


def main():
    top = os.path.dirname(os.path.dirname(os.path.abspath(__file__)))
    os.chdir(top)
    listed = []
    for folder, folders, names in os.walk("."):
        folders[:] = [it for it in folders if it not in ("out", ".git")]
        listed += [os.path.join(folder, name)[2:] for name in names]
    files = {}
    for path in listed:
        if path.endswith((".md", ".rt", ".antt")) and os.path.isfile(path):
            with open(path, encoding="utf-8") as file:
                files[path] = file.read().split("\n")
    sources = {path: lines for path, lines in files.items() if path.endswith(".rt") and "/src/" in path}
    faults = [it for path, lines in files.items() if path.endswith(".md") for it in page_faults(path, lines)]
    faults += [it for path, lines in files.items() if path.endswith((".rt", ".antt")) for it in source_faults(path, lines)]
    faults += [it for path, lines in files.items() if path.endswith(".md") for it in quote_faults(path, lines, files)]
    faults += type_faults(sources)
    faults += test_faults(path[len("tests/"):] for path in listed if re.fullmatch(r"tests/[a-z_0-9]+", path) and os.access(path, os.X_OK))
    rules = ["sentence", "cell", "term", "verb", "type", "test", "quote"]
    for rule, place, text in faults:
        print(f"prose.py: {place}: {rule}: {text}")
    broken = {rule for rule, _, _ in faults}
    missed = [rule for rule, text in WRONG if rule not in {found for found, _, _ in text()}]
    for rule in missed:
        print(f"prose.py: the rule does not find a wrong text: {rule}")
    failed = len(broken) + len(missed)
    print(f"{len(rules) + len(WRONG) - failed} passed, {failed} failed")
    return failed != 0


if __name__ == "__main__":
    sys.exit(main())
