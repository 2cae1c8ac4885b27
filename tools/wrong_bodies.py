#!/usr/bin/env python3
"""Tries the wrong bodies that the gate leaves out, crates/NAME/wrong-bodies, of these crates or of all. The prover must refuse each.

    tools/wrong_bodies.py [--in FOLDER] [--jobs N] [NAME..]

It works on a copy of the last commit, or in FOLDER, a clone, where what is built need not be built again. Wrong bodies in different
functions are put into the crate together, and the prover checks these functions and what they call. A wrong body is refused if a
goal of its own function isn't proved. It is tried alone if the prover reports nothing about the function, since one that it calls
is refused, and if it changes a constant, since then the whole crate is checked; then any goal that isn't proved refuses it.
A line for each shows what refused it; the status is 0 if all are refused. A wrong body that removes what a proof file of its
function names may be refused for that alone, and shows little about the contract: its line says so, and the last one counts them.
"""
import argparse
import pathlib
import re
import subprocess
import sys
import tempfile
from dataclasses import dataclass, field

sys.dont_write_bytecode = True

from programs import TOP

# The most that are tried together.
MOST = 20

FUNCTION = re.compile(r"^(\s*)(?:pub(?:\([a-z]+\))? )?(?:const )?fn (\w+)")
TYPE = re.compile(r"(?m)^(?:pub(?:\([a-z]+\))? )?(?:struct|enum) (\w+)")
REPORTED = re.compile(r"(?m)^(?:\w+: )?(?:\./)?(src/\S+?):(\d+):\d+: ?(.*)$")
ANSWER = re.compile(r"(?m)^\./proofs/(\S+?)/\w+\.antt:\d+:\d+: error: (.*)$")
STATE = re.compile(r"(?m)^fn \w+::(\S+?): (.*)$")
NAMES = re.compile(r"has no field|is not in scope|has no `|was not admitted")
FAILED = re.compile(r"(?m)^fn \S+?: (?:no proof|not proved).*$")


@dataclass(frozen=True)
class Function:
    """A function of a file: its name, what the prover is asked for, its first line with what is written above it, and its last."""

    name: str
    asked: str
    first: int
    last: int


@dataclass
class WrongBody:
    """A wrong body: the lines that it changes in a file of its crate, and their functions, if each is in one."""

    name: str
    file: str
    pairs: list
    functions: list = field(default_factory=list)
    why_bad: str = ""
    says_little: bool = False


def module_of(file):
    """The module that a file of src/ is."""
    return "::".join(part for part in file[len("src/") : -len(".rt")].split("/") if part != "lib")


def modules_of_types(crate):
    """The module of each type of a crate."""
    files = sorted((crate / "src").rglob("*.rt"))
    return {name: module_of(str(file.relative_to(crate))) for file in files for name in TYPE.findall(file.read_text(encoding="utf-8"))}


def owner_of(header, modules):
    """The path of the type whose functions follow this header of an impl; None where they are those of a trait."""
    header, depth = header.replace("->", "").removeprefix("impl"), 0
    while header.startswith("<") or depth:
        depth += {"<": 1, ">": -1}.get(header[0], 0)
        header = header[1:]
    name = re.match(r"\s*(\w+)", header).group(1)
    return None if " for " in header else f"{modules.get(name, '')}::{name}"


def functions_of(file, text, modules):
    """The functions of a file. One of a trait is asked for by its module."""
    module = module_of(file)
    found, owner = [], module
    lines = text.split("\n")
    for number, line in enumerate(lines, 1):
        if line.startswith("impl"):
            end = next(it for it in range(number - 1, len(lines)) if lines[it].endswith("{"))
            owner = owner_of(" ".join(lines[number - 1 : end + 1]), modules)
        elif line.startswith("}"):
            owner = module
        if function := FUNCTION.match(line):
            first = number
            while first > 1 and re.match(r"\s*(#\[|//)", lines[first - 2]):
                first -= 1
            indent, name = function.groups()
            last = next((it for it, end in enumerate(lines[number - 1 :], number) if end == f"{indent}}}"), number)
            found.append(Function(name, module if owner is None else f"{owner}::{name}".removeprefix("::"), first, last))
    return found


def read(crate, path, modules):
    """The wrong body in a file."""
    lines = path.read_text(encoding="utf-8").split("\n")
    olds = [line[5:] for line in lines if line.startswith("old: ")]
    news = [line[5:] for line in lines if line.startswith("new:")]
    wrong = WrongBody(path.stem, next(line[6:] for line in lines if line.startswith("file: ")), list(zip(olds, news)))
    text = (crate / wrong.file).read_text(encoding="utf-8")
    functions, now, places = functions_of(wrong.file, text, modules), text, []
    for old, new in wrong.pairs:
        if now.count(old) != 1:
            wrong.why_bad = f"its old text occurs {now.count(old)} times"
            return wrong
        if text.count(old) == 1:
            line = text.count("\n", 0, text.find(old)) + 1
            places.append([it for it in functions if it.first <= line <= it.last])
        now = now.replace(old, new)
    if all(places):
        wrong.functions = list(dict.fromkeys(it for place in places for it in place))
    return wrong


def together(waiting):
    """Some of those that wait, no two in one function."""
    taken, batch = set(), []
    for wrong in waiting:
        own = {(wrong.file, it.first) for it in wrong.functions}
        if len(batch) < MOST and not own & taken:
            taken |= own
            batch.append(wrong)
    return batch


def checked(crate, batch, jobs):
    """What the prover reports about the functions of these wrong bodies, with all of them in the crate."""
    before = {wrong.file: (crate / wrong.file).read_text(encoding="utf-8") for wrong in batch}
    after = dict(before)
    for wrong in batch:
        for old, new in wrong.pairs:
            after[wrong.file] = after[wrong.file].replace(old, new)
    asked = sorted({it.asked for wrong in batch for it in wrong.functions})
    words = ["rt", "check", "--jobs", str(jobs), *(word for it in asked for word in ("--only", it))]
    ways = {"stdout": subprocess.PIPE, "stderr": subprocess.STDOUT, "text": True, "errors": "replace", "check": False}
    try:
        for file, text in after.items():
            (crate / file).write_text(text, encoding="utf-8")
        return subprocess.run(words, cwd=crate, **ways).stdout
    finally:
        for file, text in before.items():
            (crate / file).write_text(text, encoding="utf-8")


def is_path_of(function, path):
    """Whether a path is that of a function, or of one of its name in its module where it is a trait's."""
    return path == function.asked or (path.startswith(function.asked) and path.endswith(f"::{function.name}"))


def reported_of(wrong, said):
    """What the prover reports against the functions of a wrong body."""
    reported = []
    for it in wrong.functions:
        reported += [what for file, line, what in REPORTED.findall(said) if file == wrong.file and it.first <= int(line) <= it.last]
        for place, what in ANSWER.findall(said):
            # (functions that call one another are proved in one folder, whose name begins with +)
            of_cycle = "+" in place and re.match(rf"`(?:\w+::)*{it.name}-", what)
            if of_cycle or is_path_of(it, place.replace("/", "::")):
                reported.append(what)
    return reported


def judged(wrong, said):
    """Whether a wrong body was refused, or None if that isn't known; and why."""
    reported = reported_of(wrong, said)
    if not STATE.search(said):
        wrong.why_bad = reported[0] if reported else ""
        return (False, reported[0]) if reported else (None, said[-300:])
    states = [state for path, state in STATE.findall(said) if any(is_path_of(it, path) for it in wrong.functions)]
    if states and all(state.startswith("proved") for state in states):
        return False, "it is still proved"
    wrong.says_little = any(NAMES.search(it) for it in reported)
    return (True, reported[0]) if reported else (None, "; ".join(states) or said[-300:])


def verdict_of(wrong, is_refused, why):
    """A line about a wrong body."""
    word = "refused" if is_refused else "BAD EDIT" if wrong.why_bad else "NOT REFUSED"
    if wrong.says_little:
        word += ", SAYS LITTLE"
    return f"{wrong.name}: {word}: {why[:200]}"


def build_below(crate):
    """Builds the libraries of the repository that a crate names, and those below them, where they aren't there."""
    lines = (crate.parent.parent / "crates.txt").read_text(encoding="utf-8").split("\n")
    named = next(line.split(":")[1].split() for line in lines if re.match(rf"{crate.name}\b", line))
    for name in named:
        if (crate.parent / name).is_dir():
            subprocess.run(["rt", "lib"], cwd=crate.parent / name, stdout=subprocess.DEVNULL, check=True)


def verdicts(crate, jobs):
    """Tries the wrong bodies of a crate: each in turn, with whether it was refused, and why."""
    build_below(crate)
    modules = modules_of_types(crate)
    waiting = [read(crate, path, modules) for path in sorted((crate / "wrong-bodies").glob("*.edit"))]
    for wrong in [it for it in waiting if it.why_bad]:
        waiting.remove(wrong)
        yield wrong, False, wrong.why_bad
    alone = [it for it in waiting if not it.functions]
    waiting = [it for it in waiting if it.functions]
    while batch := together(waiting) or alone[:1]:
        is_alone = not waiting
        said = checked(crate, batch, jobs)
        for wrong in batch:
            (alone if is_alone else waiting).remove(wrong)
            is_refused, why = judged(wrong, said)
            if is_refused is None and not is_alone:
                alone.append(wrong)
                continue
            if is_refused is None and (failed := FAILED.search(said)):
                is_refused, why = True, failed.group(0)
                wrong.says_little = bool(NAMES.search(said))
            yield wrong, bool(is_refused), why


def copied(folder):
    """Puts the last commit into a folder."""
    archive = subprocess.run(["git", "archive", "HEAD"], cwd=TOP, stdout=subprocess.PIPE, check=True)
    subprocess.run(["tar", "-x", "-C", folder], input=archive.stdout, check=True)
    subprocess.run(["git", "init", "-q"], cwd=folder, check=True)


def main():
    parser = argparse.ArgumentParser(description=__doc__, formatter_class=argparse.RawDescriptionHelpFormatter)
    parser.add_argument("names", nargs="*", metavar="NAME")
    parser.add_argument("--in", dest="folder")
    parser.add_argument("--jobs", type=int, default=2)
    asked = parser.parse_args()
    refused, little = [], 0
    with tempfile.TemporaryDirectory() as room:
        if not asked.folder:
            copied(room)
        crates = pathlib.Path(asked.folder or room).resolve() / "crates"
        for name in asked.names or sorted(path.parent.name for path in crates.glob("*/wrong-bodies")):
            for wrong, is_refused, why in verdicts(crates / name, asked.jobs):
                refused.append(is_refused)
                little += wrong.says_little
                print(f"{name}/{verdict_of(wrong, is_refused, why)}", flush=True)
    print(f"{len(refused)} wrong bodies, {refused.count(False)} not refused, {little} that say little")
    return not all(refused)


if __name__ == "__main__":
    sys.exit(main())
