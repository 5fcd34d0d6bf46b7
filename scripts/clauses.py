#!/usr/bin/env python3
"""Checks that each mutant of crates/*/must-fail is rejected at the clause that mutants-clauses.txt names.

usage: clauses.py LOG      LOG is the output of `rt ci` or `rt must-fail`

Prints each mutant that is rejected at another goal or only for a name, that isn't in the list, or that LOG doesn't have. The last line is
'N passed, M failed', over the mutants. Exits with 0 if M is 0, else with 1. rt prints the first goal that fails, and cuts the line.
"""
import re
import sys

sys.dont_write_bytecode = True
from mutants import OF_A_NAME, functions, is_at, read_clauses, read_edits

TRIED = re.compile(r"must-fail (\w+)/(\w+)\.edit: refused, as it must be(?: \((.*?)\))?: (.*)")
PLACE = re.compile(r"(?:note: )?(?:\./)?(\S+?):(\d+):\d+: (.*)")
GOAL = re.compile(r"`((?:returns|loop|invariant|[\w+-]+-requires)[\w+-]*)(`|$)")
LABEL = re.compile(r"ensures (\w+) \{")


def rejections(path):
    """Returns what a log says of each rejected mutant, by its name: a reason of rt's own, the file, the line, and the rest."""
    found = {}
    with open(path, encoding="utf-8", errors="replace") as log:
        for line in log:
            tried = TRIED.search(line.rstrip("\n"))
            place = tried and PLACE.match(tried[4])
            if tried:
                found[f"{tried[1]}/{tried[2]}"] = (tried[3], *(place.groups() if place else (None, "0", tried[4])))
    return found


def is_cut_at(goal, clause, function):
    """Returns `True` if a goal whose end is cut is of a clause. The rest of its label must begin no other clause of the function."""
    label = re.search(r"-clause-?(\w*)$", goal)
    if label is None:
        return is_at(goal, clause) or not goal.endswith(clause)
    return [it for it in LABEL.findall(function["text"]) if it.startswith(label[1])] == [clause]


def fault(mutant, due, said):
    """Returns how the rejection of a mutant differs from the clause that is due, or None."""
    name, clause = due.split(" ", 1)
    files = {text.strip() for key, text in mutant["lines"] if key == "file"}
    own = [it for file in files for it in functions(mutant["crate"], file) if it["name"] == name]
    reason, file, row, text = said
    if reason and "name" in reason or OF_A_NAME.search(text):
        return f"it is rejected only for a name: {text}"
    folders = ["proofs/" + "/".join(it["path"].split("::")[1:]) + "/" for it in own]
    is_there = any(file == it["file"] and it["first"] < int(row) <= it["last"] + 1 for it in own)
    if not is_there and not any((file or "").startswith(it) for it in folders):
        return f"it is rejected in {file}:{row}, and not in {name}: {text}"
    goal = GOAL.search(text)
    is_found = goal and (is_at(goal[1], clause) if goal[2] else any(is_cut_at(goal[1], clause, it) for it in own))
    if not is_found:
        return f"it is rejected at {goal[1] if goal else text}, and not at {clause} of {name}"
    return None


def main():
    if len(sys.argv) != 2 or sys.argv[1].startswith("-"):
        sys.exit(__doc__)
    found = rejections(sys.argv[1])
    listed = read_clauses()
    mutants = {it["name"]: it for it in read_edits()}
    failed = 0
    for name in sorted(set(mutants) | set(listed)):
        if name not in mutants:
            why = "there is no such mutant"
        elif name not in listed:
            why = "no clause is listed"
        elif name not in found:
            why = "it was not rejected, or not tried"
        else:
            why = fault(mutants[name], listed[name], found[name])
        if why:
            failed += 1
            print(f"clauses.py: {name}: {why}")
    print(f"{len(set(mutants) | set(listed)) - failed} passed, {failed} failed")
    return failed != 0


if __name__ == "__main__":
    sys.exit(main())
