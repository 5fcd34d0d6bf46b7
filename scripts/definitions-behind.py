#!/usr/bin/env python3
"""Counts the definitions in crates/*/specs that a definition rests on, with itself.

usage: definitions-behind.py [NAME [MOST]]

NAME is RunsArguments by default, the clause of the call that `main` makes. A definition is a type, a record, or a function. Names are
followed through the imports of each file. Prints the number of definitions, of their lines and of their files. Exits with 1 if there are
more than MOST definitions, or none of this name, else with 0.
"""
import os
import re
import sys

BEGIN = re.compile(r"^( *)(?:abbrev )?(?:pub )?(?:(?:data|record|abbrev) )?(?:pub )?([\w'◌-]+) ?(?::|\(|\{)")
WORD = re.compile(r"[^\W\d][\w'-]*")


def read_module(path):
    """Returns the imports and the definitions of a file: name to module and name, and name to lines."""
    imports, found, name, heading = {}, {}, None, []
    with open(path, encoding="utf-8") as file:
        for line in file.read().split("\n"):
            bare = line.strip()
            used = re.match(r"(?:pub |unfoldable )*use Rattle\.(kt_\w+)\.specs\.([\w.]+)\.\{(.*)\}", bare)
            if used:
                for one in used[3].split(","):
                    was, _, now = one.strip().partition(" as ")
                    imports[now or was] = (f"{used[1]}.{used[2]}", was)
            elif bare.startswith("module "):
                name = None
                heading.append(bare)
            elif bare and not bare.startswith(("--", "use ", "pub use ", "unfoldable ")):
                begins = BEGIN.match(line)
                is_new = bare.startswith(("abbrev ", "data ", "record ", "pub data ", "pub record ", "pub abbrev "))
                is_new = is_new or begins and (bare.startswith("pub ") or len(begins[1]) <= 2) and re.match(r"(pub )?[\w'-]+ : ", bare) and not found.get(name, ["record"])[0].strip().startswith(("pub record", "pub data", "record", "data"))
                if is_new and begins:
                    name = begins[2]
                if name:
                    found.setdefault(name, []).append(line)
    return imports, found, heading


def main():
    os.chdir(os.path.dirname(os.path.dirname(os.path.abspath(__file__))))
    modules = {}
    for crate in sorted(os.listdir("crates")):
        for folder, _, names in os.walk(f"crates/{crate}/specs"):
            for name in names:
                path = os.path.join(folder, name)
                modules[crate + "." + path[len(f"crates/{crate}/specs/"):-len(".antt")].replace("/", ".")] = read_module(path)
    begin = sys.argv[1] if len(sys.argv) > 1 else "RunsArguments"
    due = [(module, begin) for module, (_, found, _) in modules.items() if begin in found]
    seen = set()
    while due:
        module, name = due.pop()
        if module not in modules or (module, name) in seen:
            continue
        imports, found, heading = modules[module]
        if name not in found:
            if name in imports:
                due.append(imports[name])
            continue
        seen.add((module, name))
        for word in set(WORD.findall(" ".join(found[name] + heading))):
            if word != name and word in found:
                due.append((module, word))
            elif word in imports:
                due.append(imports[word])
    lines = sum(len(modules[module][1][name]) for module, name in seen)
    print(f"{begin}: {len(seen)} definitions, {lines} lines, {len({module for module, _ in seen})} files")
    return not seen or len(sys.argv) > 2 and len(seen) > int(sys.argv[2])


if __name__ == "__main__":
    sys.exit(main())
