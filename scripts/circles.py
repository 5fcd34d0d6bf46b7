#!/usr/bin/env python3
"""Checks that no modules and no folders of a crate's src import each other in a circle.

usage: circles.py

A folder is one node together with its mod.rt; imports within it don't count there. The imports of lib.rt and main.rt don't count. Prints
each circle. The last line is 'N passed, M failed', over the crates. Exits with 0 if M is 0, else with 1.
"""
import glob
import os
import re
import sys

USE = re.compile(r"\buse crate::((?:\w+::)*)(\{[^}]*\}|\w+)")
PATH = re.compile(r"(?<![\w:])crate::((?:\w+::)+)(\w+)")
EXPORT = re.compile(r"\bpub use ((?:\w+::)*)(\{[^}]*\}|\w+);")


def imports(text):
    """Yields the paths below the crate's root that the code of a module names."""
    code = re.sub(r"ghost use [^;]*;|//[^\n]*", "", text)
    for found in USE.finditer(code):
        for name in re.findall(r"\w+", found[2].replace("self", "")):
            yield found[1] + name
    for found in PATH.finditer(code):
        yield found[1] + found[2]


def modules_of(crate):
    """Returns the text of each module, by its path, and the module of each name that lib.rt exports."""
    texts, exported = {}, {}
    for path in glob.glob(f"crates/{crate}/src/**/*.rt", recursive=True):
        name = os.path.relpath(path, f"crates/{crate}/src")[: -len(".rt")].removesuffix("/mod")
        with open(path, encoding="utf-8") as file:
            texts[name.replace("/", "::")] = file.read()
    for found in EXPORT.finditer(texts.get("lib", "")):
        for name in re.findall(r"\w+", found[2]):
            exported[name] = found[1].removesuffix("::")
    return texts, exported


def module_of(path, texts, exported):
    """Returns the module of an imported path, or `None` for a path without a module."""
    parts = path.split("::")
    if len(parts) == 1 and parts[0] in exported:
        parts = exported[parts[0]].split("::")
    for length in range(len(parts), 0, -1):
        if "::".join(parts[:length]) in texts:
            return "::".join(parts[:length])
    return None


def circle_in(graph):
    """Returns the nodes of a circle of a graph, or `None`."""
    done, way = set(), []

    def visit(node):
        if node in way:
            return way[way.index(node):]
        if node in done:
            return None
        way.append(node)
        for after in sorted(graph.get(node, ())):
            circle = visit(after)
            if circle:
                return circle
        done.add(way.pop())
        return None

    for node in sorted(graph):
        circle = visit(node)
        if circle:
            return circle
    return None


def main():
    if len(sys.argv) > 1:
        sys.exit(__doc__)
    os.chdir(os.path.dirname(os.path.dirname(os.path.abspath(__file__))))
    passed = failed = 0
    for crate in sorted(os.listdir("crates")):
        texts, exported = modules_of(crate)
        modules, folders = {}, {}
        for name, text in texts.items():
            if name in ("lib", "main"):
                continue
            for path in imports(text):
                target = module_of(path, texts, exported)
                if target and target != name:
                    modules.setdefault(name, set()).add(target)
                    own, other = name.split("::")[0], target.split("::")[0]
                    if own != other:
                        folders.setdefault(own, set()).add(other)
        circles = [circle for circle in (circle_in(modules), circle_in(folders)) if circle]
        for circle in circles:
            print(f"circles.py: {crate}: {' -> '.join(circle + circle[:1])}")
        passed, failed = passed + (not circles), failed + bool(circles)
    print(f"{passed} passed, {failed} failed")
    return 1 if failed else 0


if __name__ == "__main__":
    sys.exit(main())
