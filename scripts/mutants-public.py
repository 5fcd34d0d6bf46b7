#!/usr/bin/env python3
"""Prints each public function that has no mutant with a clause.

usage: mutants-public.py [CRATE..]

These are the mutants of crates/*/must-fail, and those of mutants-rejected.txt that have a clause. A mutant is of the functions that it
changes and of those that its line `covers:` names. A line `without:` of the list gives the reason for a function without a mutant. Prints
also each line that names no public function, or a function that has a mutant of its own. The last line is 'N passed, M failed', over the
functions and these lines. Exits with 0 if M is 0, with 3 on an unknown crate, else with 1.
"""
import sys

sys.dont_write_bytecode = True
from mutants import TOP, changes_of, crates, functions_of, public_functions, read_edits, read_list, read_without

LIST = f"{TOP}/scripts/mutants-rejected.txt"


def own_mutants():
    """Returns the paths of the functions that a mutant of the gate changes."""
    tried = [(it, False) for it in read_list(LIST) if it["clause"]] + [(it, True) for it in read_edits()]
    return {own["path"] for it, is_edit in tried for own in functions_of(it, changes_of(it, is_edit)[0] or [])}


def main():
    chosen = sys.argv[1:] or crates()
    if set(chosen) - set(crates()):
        print(__doc__, file=sys.stderr)
        return 3
    public = {f"{crate}::{it['name']}": it["path"] for crate in crates() for it in public_functions(crate)}
    owned, covered, without = own_mutants(), {name for it in read_list(LIST) for name in it["covers"]}, read_without(LIST)
    passed, faults = 0, [f"{name} is no public function" for name in sorted(covered | set(without)) if name not in public]
    for name, path in public.items():
        is_named = name in covered or name in without
        if path in owned and is_named:
            faults.append(f"{name} has a mutant of its own")
        elif path not in owned and not is_named and name.split("::")[0] in chosen:
            faults.append(f"{name} has no mutant")
        else:
            passed += name.split("::")[0] in chosen
    for fault in faults:
        print(f"mutants-public.py: {fault}")
    print(f"{passed} passed, {len(faults)} failed")
    return len(faults) != 0


if __name__ == "__main__":
    sys.exit(main())
