#!/usr/bin/env bash
# Checks that the prover rejects each mutant of mutants-rejected.txt, at the clause that the list names.
#
#   mutants-rejected.sh                     all mutants
#   mutants-rejected.sh CRATE..             the mutants of these crates; CRATE/MUTANT is one mutant
#   mutants-rejected.sh --gate [CRATE..]    only the mutants with a clause, over the libraries that `rt ci` proved
#   mutants-rejected.sh --edits [CRATE..]   the mutants of crates/*/must-fail in the same way, with the clauses of mutants-clauses.txt
#
# Prints a line for each mutant: "rejected" with the goals that fail, "NOT REJECTED", or why it could not be applied. A mutant whose clause
# is in the list must be rejected at a goal of this clause. The lines of a crate come once all its mutants were tried. The last line is
# 'N passed, M failed', over the mutants. Exits with 0 if M is 0, with 2 if there is no rt, with 3 on an unknown option, else with 1.
#
# The script works on a copy of the checkout. One check tries mutants of different functions, since a function is proved from its own body
# and the contracts of its callees. Without an option, a check starts from the results of an earlier check of the crate, if there are any.
# Otherwise it checks only the functions with a mutant, and leaves the proofs of all others open. If that check reports nothing about a
# mutant without a clause, the script tries the mutant alone. A mutant that is accepted then is tried again without earlier results.
# Libraries that `rt ci` did not keep or leave in the checkout are built first, which takes a proof of each.
#
# RT_JOBS is how many crates are tried at once, 1 if it isn't set; each takes a processor and up to 5 GB.
# MUTANTS_LOG, if it is set, is the path of the output of the checks, before a dot, the crate and the number of its mutants.
# rt is taken from PATH, else from the kit that RATTLE_KIT names.
set -eu -o pipefail
top=$(cd "$(dirname "$0")/.." && pwd)
. "$top/scripts/sources.sh"
case ${1-} in --gate | --edits) ;; -*) explain "$@" ;; esac
find_rt || exit 2
room=$(mktemp -d)
trap 'rm -rf "$room"' EXIT
trap 'exit 1' HUP INT TERM
mkdir "$room/tree"
(cd "$top" && tar -cf - --exclude=out crates crates.txt HANDLES) | tar -xf - -C "$room/tree"
mkdir "$room/tree/.git"
python3 - "$top" "$room" "$(realpath "$(command -v rt)")" "$@" <<'TRY'
import concurrent.futures, copy, importlib.machinery, importlib.util, os, re, shutil, subprocess, sys, tempfile
top, room, rt_path, *chosen = sys.argv[1:]
option = chosen.pop(0) if chosen and chosen[0].startswith("-") else None
is_gate, is_edits = option is not None, option == "--edits"
sys.dont_write_bytecode = True
sys.path.insert(0, f"{top}/scripts")
from mutants import changes_of, functions, functions_of, goals_in, is_at, read, read_clauses, read_edits, read_list, sources
loader = importlib.machinery.SourceFileLoader("rt", rt_path)
rt = importlib.util.module_from_spec(importlib.util.spec_from_loader("rt", loader))
sys.modules["rt"] = rt
loader.exec_module(rt)

mutants = read_edits() if is_edits else read_list(f"{top}/scripts/mutants-rejected.txt")
for mutant in mutants if is_edits else []:
    mutant["clause"] = read_clauses()[mutant["name"]].split(" ", 1)[1]
unknown = set(chosen) - {it["name"] for it in mutants} - {it["crate"] for it in mutants}
if unknown:
    sys.exit(f"mutants-rejected.sh: unknown crate or mutant: {' '.join(sorted(unknown))}")
mutants = [it for it in mutants if not chosen or it["name"] in chosen or it["crate"] in chosen]
mutants = [it for it in mutants if it["clause"] or not is_gate]
for mutant in mutants:
    mutant["changes"], mutant["why"] = changes_of(mutant, is_edits)
    mutant["functions"] = functions_of(mutant, mutant["changes"]) if mutant["changes"] else []
    mutant["goals"], mutant["is_rejected"] = [], False

os.chdir(f"{room}/tree")
os.environ.pop(rt.rtlib.ALLOW_C, None)
rt.rtlib.guarded()
rt.Crate.allowed = rt.handles_of(os.getcwd())
# Some kits move the results of earlier runs to a directory that the caller names.
crates = rt.crates_of(*[os.getcwd(), f"{room}/aside"][: rt.crates_of.__code__.co_argcount])
by_name = {it.name: it for it in crates}
flags = ["--jobs", "1"]


def check(crate, group, kept):
    """Returns the lines of a check of a crate with these mutants, and its exit status."""
    texts = {}
    for mutant in group:
        for file, at, line in mutant["changes"]:
            texts.setdefault(file, read(f"{top}/crates/{crate.name}/{file}"))[at] = line
    texts = {file: "\n".join(lines) for file, lines in texts.items()}
    if kept:
        ran = rt.checked(crate, texts, flags, kept)
        return ran.stdout.rstrip("\n").split("\n"), ran.returncode
    with tempfile.TemporaryDirectory(prefix="mutants-") as place:
        for part in rt.rtlib.PARTS:
            if os.path.isdir(f"{crate.folder}/{part}"):
                shutil.copytree(f"{crate.folder}/{part}", f"{place}/{part}")
        for file, text in texts.items():
            with open(f"{place}/{file}", "w", encoding="utf-8") as it:
                it.write(text)
        names = [it["path"] for mutant in group for it in mutant["functions"]]
        leave_proofs_open(crate.name, names, place)
        only = [word for name in names for word in ("--only", name.split("::", 1)[1])]
        words = [rt.rtlib.RATTLE, "check", *crate.words(flags, keeps=False), "--allow-holes", *only]
        how = {"cwd": place, "stdin": subprocess.DEVNULL, "stdout": subprocess.PIPE, "stderr": subprocess.STDOUT, "errors": "replace"}
        ran = subprocess.run([*rt.rtlib.guarded(), *words], **how)
        return ran.stdout.rstrip("\n").split("\n"), ran.returncode


def leave_proofs_open(crate, names, place):
    """Gives each function in a copy of a crate, except these, a proof with a hole, since the functions that call it need only its contract.
    The proof of a recursive function can't be replaced."""
    for file in sources(crate):
        for own in functions(crate, file):
            if own["path"] in names or own["is_recursive"]:
                continue
            parts = own["path"].split("::")[1:]
            folder = f"{place}/proofs/{'/'.join(parts)}"
            os.makedirs(folder, exist_ok=True)
            for part in ("Answers", "Invariants"):
                if os.path.exists(f"{folder}/{part}.antt"):
                    os.remove(f"{folder}/{part}.antt")
            with open(f"{folder}/Proof.antt", "w", encoding="utf-8") as it:
                it.write(f"use Rattle.{crate}.proofs.{'.'.join(parts)}.Statement.{{statement}}\n\n")
                it.write(f"pub {parts[-1]}_spec : {{M : Type 1}} → statement M\n{parts[-1]}_spec = ?\n")


def try_together(crate, group, kept):
    """Tries mutants of different functions by one check, and sets the goals that reject each."""
    output, status = check(crate, group, kept)
    if os.environ.get("MUTANTS_LOG"):
        with open(f"{os.environ['MUTANTS_LOG']}.{crate.name}.{len(group)}", "w", encoding="utf-8") as log:
            log.write("\n".join(output))
    # 3: the prover met a limit of its own in some function.
    if status == 3 or status == 1 and re.match("logic=not-proved|only=", output[-1]):
        for mutant in group:
            mutant["goals"] = [goal for it in mutant["functions"] for goal in goals_in(output, it)]
    elif status and len(group) > 1:
        # Some of these mutants can't be compiled.
        places = {it.groups() for it in map(re.compile(r"(?:\./)?(\S+?):(\d+):\d+: error").match, output) if it}
        good = [it for it in group if not any((file, str(at + 1)) in places for file, at, _ in it["changes"])]
        half = len(group) // 2
        for part in [good] if 0 < len(good) < len(group) else [group[:half], group[half:]]:
            try_together(crate, part, kept)
        for mutant in group if 0 < len(good) < len(group) else []:
            if mutant not in good:
                mutant["why"] = "it can't be compiled"
    elif status:
        mutant = group[0]
        mutant["why"] = f"it can't be compiled: {next((it for it in output if 'error' in it), output[-1])[:160]}"


def try_alone(crate, mutant, kept):
    """Returns what rt prints of a mutant that it tries alone."""
    edit = f"{room}/{mutant['name'].split('/')[1]}.edit"
    with open(edit, "w", encoding="utf-8") as file:
        for path, at, line in mutant["changes"]:
            file.write(f"file: {path}\nold: {read(f'{top}/crates/{crate.name}/{path}')[at]}\nnew: {line}\n")
    why = rt.must_fail(crate, edit, flags, kept)[1]
    if "NOT REFUSED" in why:
        why = rt.must_fail(crate, edit, flags)[1]
    return why.split(": ", 1)[1]


# A kit with `Kept` keeps the results of `rt ci` by their checksums. Another kit leaves them in the checkout, in crates/*/out.
is_keeping = hasattr(rt, "Kept")
kept_by_ci = rt.Kept(crates) if is_keeping else None


def take_libraries(used):
    """Gives these crates the libraries that `rt ci` proved, and returns `True` if it has all of them."""
    for crate in used:
        if not is_keeping:
            if not is_newer_than_sources(crate):
                return False
            copy_library(crate)
        elif not kept_by_ci.give(crate, False, kept_by_ci.key(crate)):
            return False
        else:
            kept_by_ci.is_built(crate)
    return True


def is_newer_than_sources(crate):
    """Returns `True` if the checkout has a library of a crate that is newer than each source of the crate and of the crates below."""
    library = f"{top}/crates/{crate.name}/out/rlib/{crate.name}.rlib"
    folders = [f"{top}/crates/{it.name}/{part}" for it in [crate, *crate.below()] for part in rt.rtlib.PARTS]
    files = [f"{at}/{name}" for folder in folders for at, _, names in os.walk(folder) for name in names]
    return os.path.isdir(library) and all(os.path.getmtime(it) < os.path.getmtime(library) for it in files)


def copy_library(crate):
    """Copies the library of a crate from the checkout, if the checkout has it and the copy doesn't."""
    here = f"{top}/crates/{crate.name}/out/rlib"
    if os.path.isdir(here) and not os.path.exists(f"{crate.folder}/out/rlib"):
        shutil.copytree(here, f"{crate.folder}/out/rlib", symlinks=True)


def build(crate):
    """Takes or builds the library of a crate, and returns `True` if it is proved."""
    copy_library(crate)
    return crate.is_built() or is_keeping and rt.take_rlib(crate) or not crate.build_rlib(flags, anew=False)


def results_of(crate):
    """Returns a copy of the results of an earlier check of a crate, or None in the gate or if there are none."""
    to = f"{crate.folder}/out/incremental"
    here = copy.copy(crate)
    here.folder = f"{top}/crates/{crate.name}"
    start = None if is_gate else rt.work_for(here) if is_keeping else f"{here.folder}/out/incremental"
    if not start or not os.path.isdir(start):
        return None
    os.makedirs(os.path.dirname(to), exist_ok=True)
    if is_keeping:
        rt.linked(start, to)
    else:
        shutil.copytree(start, to)
    return to


def grouped(here):
    """Returns these mutants in groups of different functions."""
    groups = []
    for mutant in here:
        names = {it["path"] for it in mutant["functions"]}
        if mutant["why"] or not names:
            continue
        for group in groups:
            if names.isdisjoint(group[0]):
                break
        else:
            group = (set(), [])
            groups.append(group)
        group[0].update(names)
        group[1].append(mutant)
    return [group for _, group in groups]


def judge(crate, mutant, kept):
    """Sets whether a mutant is rejected, and what to print."""
    if mutant["why"]:
        return
    named = [it for it in mutant["goals"] if mutant["clause"] and is_at(it, mutant["clause"])]
    if mutant["goals"]:
        mutant["is_rejected"] = bool(named) or not mutant["clause"]
        mutant["why"] = ("rejected: " if mutant["is_rejected"] else f"NOT REJECTED at {mutant['clause']}: ") + " ".join((named or mutant["goals"])[:3])
    elif mutant["clause"]:
        mutant["why"] = f"NOT REJECTED at {mutant['clause']}"
    else:
        why = try_alone(crate, mutant, kept)
        mutant["is_rejected"] = "refused, as it must be" in why
        mutant["why"] = why.replace("refused, as it must be", "rejected").replace("NOT REFUSED", "NOT REJECTED")


def tried(name):
    """Tries the mutants of a crate, and returns them."""
    crate = by_name[name]
    here = [it for it in mutants if it["crate"] == name]
    kept = results_of(crate)
    if not ready or kept and rt.checked(crate, {}, flags, kept).returncode:
        for mutant in here:
            mutant["why"] = mutant["why"] or f"{name} is not proved without a mutant"
    for group in grouped(here):
        try_together(crate, group, kept)
    for mutant in here:
        judge(crate, mutant, kept)
    shutil.rmtree(f"{crate.folder}/out/incremental", ignore_errors=True)
    return here


names = list(dict.fromkeys(it["crate"] for it in mutants))
passed = 0
with open(f"{room}/log", "w") as log:
    for it in crates:
        it.out = log
    used = [it for it in crates if any(it in by_name[name].below() for name in names)]
    ready = take_libraries(used) or all(build(it) for it in used)
# The crates with the longest proofs begin.
names.sort(key=lambda it: -sum(len(read(f"{at}/{file}")) for at, _, files in os.walk(f"{by_name[it].folder}/proofs") for file in files))
with concurrent.futures.ThreadPoolExecutor(int(os.environ.get("RT_JOBS") or 1)) as pool:
    for here in pool.map(tried, names):
        print("\n".join(f"{it['name']}: {it['why']}" for it in here), flush=True)
        passed += sum(it["is_rejected"] for it in here)
print(f"{passed} passed, {len(mutants) - passed} failed")
sys.exit(passed != len(mutants))
TRY
