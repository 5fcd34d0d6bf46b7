#!/usr/bin/env python3
"""usage: kyua-tools json RESULTS | verdicts.py RUNNER FILE
Compares the results of adopted tests with the runner's own, case by case, for docs/adapters.md.

RUNNER  FILE, what the runner left of a run of all its tests
pytest  the output of `pytest -v --color=no`
gtest   the outputs of the programs, each after a line `== PROGRAM`
ctest   the file of `ctest --output-junit`
meson   meson-logs/testlog.json
bats    the output of `bats --formatter junit` of one directory
cargo   both outputs of `cargo test` of one package

A test case that is `broken`, since its program ended, agrees with a failure. The script prints each test that differs, and the
counts of all. Exits with 0 if there is no difference, else with 1.
"""
import collections
import json
import re
import sys
import xml.etree.ElementTree

# The results that correspond to the words of the runners.
RESULTS = {
    "passed": "PASSED XPASS OK ok run",
    "skipped": "SKIPPED SKIP ignored disabled skipped",
    "expected_failure": "XFAIL EXPECTEDFAIL",
    "failed": "FAILED ERROR FAIL TIMEOUT UNEXPECTEDPASS fail failure notrun",
}
RESULT = {word: result for result, words in RESULTS.items() for word in words.split()}


def pytest(file):
    """Yields the name and the word of each test. A test with an error after it passed has two."""
    for line in file:
        found = re.match(r"(\S.*?::.*?) (PASSED|SKIPPED|XFAIL|XPASS|FAILED|ERROR)\b.*\[ *\d+%\]$", line)
        if found:
            yield found[1], found[2]


def gtest(file):
    """Yields the name, with the program before it, and the word of each test that is not disabled."""
    for line in file:
        found = re.match(r"== (.*)|\[ +(OK|SKIPPED|FAILED) +\] (\w\S*\.[^\s,]+)", line)
        if found and found[1]:
            program = found[1]
        elif found:
            yield program + ":" + found[3], found[2]


def ctest(file):
    """Yields the name and the word of each test: its last element, or its status."""
    for case in xml.etree.ElementTree.parse(file).iter("testcase"):
        yield case.get("name"), ([case.get("status", "run")] + [child.tag for child in case if child.tag in RESULT])[-1]


def bats(file):
    """Yields the name, with the file before it, and the word of each test."""
    for case in xml.etree.ElementTree.parse(file).iter("testcase"):
        yield case.get("classname") + ":" + case.get("name"), (["run"] + [child.tag for child in case if child.tag in RESULT])[-1]


def meson(file):
    """Yields the name and the word of each test."""
    for line in file:
        test = json.loads(line)
        yield test["name"], test["result"]


def cargo(file):
    """Yields the name, with the label of the adapter but for the package before it, and the word of each test."""
    label = ""
    for line in file:
        program = re.match(r" +Running (?:unittests )?(\S+)\.rs \(| +Doc-tests", line)
        test = re.match(r"test (.*?)(?: - should panic| - compile(?: fail)?)? \.\.\. (ok|ignored|FAILED)", line)
        if program:
            label = re.sub("^src/lib$", "", re.sub("^tests/", "::", re.sub("^src/bin/", "::bin/", program[1] or "doc")))
        elif test:
            yield label + " " + test[1], test[2]


def adopted(runner, line):
    """Returns the name that a test case, an object of JSON, has in the runner, with its result and reason."""
    case = json.loads(line)
    name = re.sub("%([0-9A-F]{2})", lambda code: chr(int(code[1], 16)), case["case"].replace("~", ":"))
    if runner == "gtest":
        name = case["program"] + ":" + name
    elif runner == "bats":
        name = re.sub("^[^:]*/", "", name)
    elif runner == "cargo" and not name.startswith("doc "):
        name = re.sub("^[^: ]+", "", name)
    return name, case["result"], case["reason"] or ""


def main(runner, path):
    """Compares the results of standard input with those of the file, and returns the exit status."""
    own = {}
    with open(path, encoding="utf-8", errors="surrogateescape") as file:
        for test, word in {"pytest": pytest, "gtest": gtest, "ctest": ctest, "meson": meson, "bats": bats, "cargo": cargo}[runner](file):
            own[test] = "failed" if "failed" in (RESULT[word], own.get(test)) else RESULT[word]
    counts = collections.Counter()
    for line in sys.stdin:
        test, result, reason = adopted(runner, line)
        # GoogleTest prints no line of a disabled test.
        wanted = own.pop(test, "skipped" if runner == "gtest" and "DISABLED_" in test else "missing")
        agree = wanted == ("failed" if result == "broken" else result)
        counts["agree" if agree else "differ", wanted, result] += 1
        if not agree:
            print("%s: %s by %s, %s by kyua: %s" % (test, wanted, runner, result, reason))
    for test, wanted in own.items():
        counts["differ", wanted, "missing"] += 1
        print("%s: %s by %s, missing by kyua" % (test, wanted, runner))
    for key, count in sorted(counts.items()):
        print("%6d %s: %s, %s" % ((count,) + key))
    return any(key[0] == "differ" for key in counts)


if len(sys.argv) != 3:
    print(__doc__, end="")
    sys.exit(sys.argv[1:] != ["--help"])
sys.exit(main(*sys.argv[1:]))
