"""Functions that the scripts about mutants share: the lists of mutants, the functions of a source file, and the goals that reject a mutant.

A function is named as `rt check` names it: CRATE::MODULE::TYPE::FUNCTION, and CRATE::MODULE::TYPETRAIT::FUNCTION in an implementation of a
trait. In an implementation for a type such as `T<A<B>>`, the type is T+A+B. A list names it without the modules: TYPE::FUNCTION.
"""
import functools
import glob
import os
import re

TOP = os.path.dirname(os.path.dirname(os.path.abspath(__file__)))
# The clause of a function that has one clause, without a label.
ONLY_CLAUSE = "ensures"


def read(path):
    with open(path, encoding="utf-8") as file:
        return file.read().split("\n")


def crates():
    """Returns the crates that the program consists of, the lowest first, without the program itself."""
    below = {}
    for line in read(f"{TOP}/crates.txt"):
        if re.match("[a-z]", line):
            name, _, deps = line.partition(":")
            below[name] = deps.split()
    used, rest = set(), ["kyua"]
    while rest:
        name = rest.pop()
        if name in below and name not in used:
            used.add(name)
            rest += below[name]
    return [name for name in below if name in used - {"kyua"}]


def read_list(path):
    """Returns the mutants of a list: their names, crates, lines (KEY, TEXT), clause or None, and the other functions that they represent."""
    found = []
    for line in read(path):
        key, _, text = line.partition(": ")
        if key == "name":
            found.append({"name": text, "crate": text.split("/")[0], "lines": [], "clause": None, "covers": []})
        elif key in ("file", "in", "old", "new"):
            found[-1]["lines"].append((key, text))
        elif key == "clause":
            found[-1]["clause"] = text
        elif key == "covers":
            found[-1]["covers"] += text.split()
        elif key and not key.startswith(("#", "without")):
            raise SystemExit(f"{os.path.basename(path)}: unknown line: {line}")
    return found


def read_without(path):
    """Returns the public functions for which a list gives a reason why they have no mutant, by their names: CRATE::TYPE::FUNCTION."""
    lines = [line.partition(": ")[2].split(" ", 1) for line in read(path) if line.startswith("without: ")]
    return {name: reason for name, reason in lines}


def read_edits():
    """Returns the mutants of crates/*/must-fail in the same form. Their old and new texts are parts of a line."""
    found = []
    for path in sorted(glob.glob(f"{TOP}/crates/*/must-fail/*.edit")):
        crate, name = path.split("/")[-3], os.path.basename(path)[: -len(".edit")]
        parts = [line.partition(": ") for line in read(path)]
        lines = [(key, text) for key, _, text in parts if key in ("file", "old", "new")]
        found.append({"name": f"{crate}/{name}", "crate": crate, "lines": lines, "clause": None, "covers": []})
    return found


def read_clauses():
    """Returns the function and the clause that mutants-clauses.txt names for each mutant of crates/*/must-fail, by its name."""
    lines = read(f"{TOP}/scripts/mutants-clauses.txt")
    return dict(line.split(": ", 1) for line in lines if line and not line.startswith("#"))


def head_names(head):
    """Returns the type, the trait and the trait's arguments that the head of an `impl` names, without their modules and parameters.
    Without a trait, the second value is what the arguments of the type add to its name."""
    text = re.sub(r"^(ghost )?impl\s*", "", head).split(" where ")[0].split("{")[0].strip()
    if text.startswith("<"):
        depth = 0
        for at, sign in enumerate(text):
            depth += (sign == "<") - (sign == ">" and text[at - 1] != "-")
            if depth == 0:
                break
        text = text[at + 1 :].strip()
    trait, _, owner = text.rpartition(" for ")
    words = [it.split("::")[-1] for it in re.findall(r"(?<!['\w])[A-Z_a-z][\w:]*", re.sub(r"'\w+", "", trait))]
    owner, arguments = re.match(r"&?(?:'\w+ )?(?:mut )?([\w:]+)(.*)", owner).groups()
    owner = owner.split("::")[-1]
    if not trait and arguments.count("<") > 1:
        # A method of a type with such arguments is named by all of them.
        return owner, "".join(f"+{it}" for it in re.findall(r"\w+", arguments)), None
    return owner, "".join(it for it in words if len(it) > 1), words[0] if words else None


@functools.lru_cache(maxsize=None)
def homes(crate):
    """Returns the modules of the types of a crate, by their names. A method belongs to the module of its type."""
    found = {}
    for file in sources(crate):
        for name in re.findall(r"(?m)^(?:pub(?:\(\w+\))? )?(?:struct|enum) (\w+)", "\n".join(read(f"{TOP}/crates/{crate}/{file}"))):
            found[name] = modules_of(file)
    return found


def modules_of(file):
    return [it for it in file[: -len(".rt")].split("/")[1:] if it not in ("lib", "main", "mod")]


def functions(crate, file):
    """Returns the functions of a source file of a crate: dictionaries with their path, name, type, trait, first and last line (from 0)."""
    lines = read(f"{TOP}/crates/{crate}/{file}")
    found, owner, suffix, trait, is_declared = [], None, "", None, False
    for at, line in enumerate(lines):
        if re.match(r"(ghost )?impl\b", line):
            last = next(it for it in range(at, len(lines)) if "{" in lines[it] or it == len(lines) - 1)
            owner, suffix, trait = head_names(" ".join(it.strip() for it in lines[at : last + 1]))
            is_declared = False
        elif re.match(r"(pub(\(\w+\))? )?trait\b", line):
            owner, is_declared = re.match(r"(?:pub(?:\(\w+\))? )?trait (\w+)", line)[1], True
        elif line == "}":
            owner, suffix, trait, is_declared = None, "", None, False
        head = re.match(r"(\s*)(pub(?:\(\w+\))? )?(const )?fn (\w+)", line)
        if not head or is_declared:
            continue
        ends = (it for it in range(at, len(lines)) if re.match(head[1] + r"(\}|\{\})", lines[it]) or it == at and line.endswith("}"))
        last = next(ends, None)
        if last is None:
            continue
        within = owner if head[1] else None
        # The check names a written `drop` like a method of its type.
        modules = homes(crate).get(within, modules_of(file)) if within else modules_of(file)
        path = "::".join([crate, *modules, *([within + suffix * (trait != "Drop")] if within else []), head[4]])
        name = f"{within}::{head[4]}" if within else head[4]
        is_public = head[2] == "pub "
        found.append({"path": path, "name": name, "owner": within, "trait": trait if within else None, "first": at, "last": last,
                      "is_public": is_public, "file": file, "is_recursive": is_recursive(path), "text": "\n".join(lines[at : last + 1])})
    return found


def is_recursive(path):
    """Returns `True` if a function calls itself. The directory of its proof then has a plus sign before the name."""
    crate, *within, name = path.split("::")
    return os.path.isdir(f"{TOP}/crates/{crate}/proofs/{'/'.join([*within, '+' + name])}")


def sources(crate):
    """Returns the source files of a crate, relative to the crate."""
    folder = f"{TOP}/crates/{crate}"
    return sorted(os.path.relpath(path, folder) for path in glob.glob(f"{folder}/src/**/*.rt", recursive=True))


def public_functions(crate):
    """Returns the functions that other crates can call: exported functions, methods of exported types, and the functions by which such a type
    implements a public trait of the repository. A theorem has no code, so it can have no mutant. A private module exports nothing itself."""
    root = "\n".join(read(f"{TOP}/crates/{crate}/src/lib.rt"))
    names = set()
    for path, group in re.findall(r"(?m)^pub use ([\w:]+)(?:::\{([^}]*)\})?;", root):
        names |= {it.strip() for it in group.split(",") if it.strip()} if group else {path.split("::")[-1]}
    modules = set(re.findall(r"(?m)^pub mod (\w+);", root))
    traits = public_traits()
    found = []
    for file in sources(crate):
        module = file[len("src/") : -len(".rt")]
        for it in functions(crate, file):
            is_reached = module in modules or (it["owner"] or it["name"]) in names
            is_offered = it["is_public"] if it["trait"] is None else it["trait"] in traits
            if is_reached and is_offered and not is_theorem(it):
                found.append(it)
    return found


def is_theorem(function):
    """Returns `True` for a function whose body is empty or only names its arguments."""
    body = re.split(r"(?m)^\s*\{\s*$|\{\}$", function["text"])[-1]
    return re.fullmatch(r"(\s*(let _ = \w+;)?\s*)*\}?\s*", body) is not None


def public_traits():
    found = set()
    for crate in crates():
        for file in sources(crate):
            found |= set(re.findall(r"(?m)^pub trait (\w+)", "\n".join(read(f"{TOP}/crates/{crate}/{file}"))))
    return found


def changes_of(mutant, is_edit=False):
    """Returns the changes of a mutant and None: (FILE, NUMBER, NEW LINE) each. Returns None and the reason if one can't be applied."""
    changes, within = [], None
    for key, text in mutant["lines"]:
        if key == "file":
            file, within = text.strip(), None
            if not os.path.exists(f"{TOP}/crates/{mutant['crate']}/{file}"):
                return None, f"there is no {file}"
            lines = read(f"{TOP}/crates/{mutant['crate']}/{file}")
        elif key == "in":
            own = [it for it in functions(mutant["crate"], file) if it["name"] == text]
            if not own:
                return None, f"{file} has no function {text}"
            within = {number for it in own for number in range(it["first"], it["last"] + 1)}
        elif key == "old":
            old = text
            at = [it for it, line in enumerate(lines) if (text in line if is_edit else line.strip() == text.strip())]
            at = [it for it in at if within is None or it in within]
            if len(at) != 1:
                return None, f"{len(at)} lines of {file} are: {text}"
        else:
            line = lines[at[0]]
            lines[at[0]] = line.replace(old, text) if is_edit else line[: len(line) - len(line.lstrip())] + text
            changes.append((file, at[0], lines[at[0]]))
    return changes, None


def functions_of(mutant, changes):
    """Returns the functions that the changes of a mutant are in. For a changed constant these are the functions of its file that name it."""
    found = []
    for file, at, _ in changes:
        all_here = functions(mutant["crate"], file)
        own = [it for it in all_here if it["first"] <= at <= it["last"]][-1:]
        if not own:
            lines = read(f"{TOP}/crates/{mutant['crate']}/{file}")
            head = next((it for it in lines[at::-1] if re.match(r"(pub(\(\w+\))? )?\w", it)), "")
            name = re.search(r"(?:const|static) (\w+)", head)
            own = [it for it in all_here if name and re.search(rf"\b{name[1]}\b", it["text"])]
        found += [it for it in own if it["path"] not in [other["path"] for other in found]]
    return found


# Messages about a name that a proof uses and the mutant took away. They say nothing about a clause.
OF_A_NAME = re.compile(r"has no field|is not in scope|has no `|was not admitted|is no name")


def goals_in(output, function):
    """Returns the goals of a function that a check did not prove, by its lines, without those that fail only for a name."""
    folder = "proofs/" + "/".join(function["path"].split("::")[1:]) + "/"
    rows = range(function["first"] + 1, function["last"] + 2)
    found = []
    for line in output:
        place = re.match(r"(?:note: )?(?:\./)?(\S+?):(\d+):\d+: (.*)", line)
        missing = re.match(r"fn (\S+): no proof: (.*)", line)
        if missing and missing[1] == function["path"] and "did not prove" in missing[2]:
            found += re.findall(r"`([\w+-]+)`", missing[2].split("did not prove")[1])
        elif place and place[1].startswith(folder) and "error: " in place[3] and not OF_A_NAME.search(place[3]):
            found += re.findall(r"error: `([\w+-]+)`", place[3])
        elif place and place[1] == function["file"] and int(place[2]) in rows:
            found += re.findall(r"`((?:returns|loop|invariant|[\w+]+-requires)[\w+-]*)`", place[3])
    return list(dict.fromkeys(found))


def is_at(goal, clause):
    """Returns `True` if a goal is of a clause. A goal without a label is of a clause without a label, or of all clauses of its function.
    The clause `loop` is the invariant of a loop, `invariant` that of a type, and `requires CALLEE` the condition of a call."""
    kind, _, callee = clause.partition(" ")
    if kind == "requires":
        return re.match(rf"{re.escape(callee)}(-\w+)?-requires", goal) is not None
    if kind in ("loop", "invariant"):
        return goal.startswith(kind)
    if not goal.startswith("returns"):
        return False
    label = re.search(r"-clause-(\w+)$", goal)
    return label is None if kind == ONLY_CLAUSE or label is None else label[1] == kind
