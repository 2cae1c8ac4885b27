#!/usr/bin/env python3
"""Prints the sizes of the pages and the sources: long pages, lines, functions, files and crates.

    tools/house.py [--list]

Words are counted as `wc -w` does. A function's lines are those of its body, and its clauses aren't among them. A clause line
is a line of a `requires` or an `ensures`, from that word to the bracket that closes the clause. With --list, it also names
each clause line of more than 100 columns, each function of more than 7 parameters or 40 lines, each file of more than 800
lines and each crate of more than 100 functions. If the command `duplicates` is on the path, its first line is printed, too:
how many pairs of places share six lines or more.

The numbers are printed and not judged, so the status is 0.
"""
import argparse
import pathlib
import re
import shutil
import subprocess
import sys
import tempfile
from typing import NamedTuple

sys.dont_write_bytecode = True

from programs import TOP

COLUMNS, PARAMETERS, LINES, FILE_LINES, FUNCTIONS = 100, 7, 40, 800, 100
HIDDEN = re.compile(r"//[^\n]*|b?\"(?:[^\"\\]|\\.)*\"|b?'(?:[^'\\\n]|\\[^'\n]{1,8})'", re.S)
SIGNATURE = re.compile(r"\bfn\s+(\w+)")
CLAUSE = re.compile(r"^[ \t]*(?:requires|ensures)\b[^{;]*\{", re.M)
CLOSED_BY = {"(": ")", "{": "}", "<": ">"}


class Function(NamedTuple):
    """A function of the sources: the crate, where it begins, how many parameters it has, and how long its body is."""

    crate: str
    place: str
    parameters: int
    lines: int


def words(*pages):
    """The words of these pages."""
    return sum(len(page.read_text().split()) for page in pages)


def hidden(text):
    """The text with comments and literals as blanks of the same length."""
    return HIDDEN.sub(lambda it: re.sub(r"[^\n]", " ", it.group()), text)


def end_of(text, begin):
    """The offset of the bracket that closes the one at `begin`."""
    depth, close = 0, CLOSED_BY[text[begin]]
    for at in range(begin, len(text)):
        if text[at] == text[begin]:
            depth += 1
        elif text[at] == close and not (close == ">" and text[at - 1] in "-="):
            depth -= 1
            if depth == 0:
                return at
    return len(text)


def body_of(text, at):
    """Where the body of a function begins that has its parameters before `at`, or None if it has no body."""
    while True:
        found = re.compile(r"[;{]").search(text, at)
        if not found or found.group() == ";":
            return None
        line = text[text.rfind("\n", 0, found.start()) + 1 : found.start()]
        if not re.search(r"\b(?:requires|ensures|ghost)\b", line):
            return found.start()
        at = end_of(text, found.start()) + 1


def parameters_of(text):
    """How many parameters there are between these parentheses."""
    depth, found, is_empty = 0, 0, True
    for before, char in zip(" " + text, text):
        if char in "([{<":
            depth += 1
        elif char in ")]}" or (char == ">" and before not in "-="):
            depth -= 1
        if char == "," and depth == 0:
            found, is_empty = found + 1, True
        elif not char.isspace():
            is_empty = False
    return found + (not is_empty)


def functions_of(crate, file):
    """The functions of a file that have a body."""
    text = hidden(file.read_text())
    for match in SIGNATURE.finditer(text):
        at = match.end()
        if text[at : at + 1] == "<":
            at = end_of(text, at) + 1
        close = end_of(text, at) if text[at : at + 1] == "(" else at
        begin = body_of(text, close)
        if begin is not None:
            line = text.count("\n", 0, match.start()) + 1
            lines = text.count("\n", begin, end_of(text, begin)) - 1
            place = f"{file.relative_to(TOP)}:{line}: {match.group(1)}"
            yield Function(crate.name, place, parameters_of(text[at + 1 : close]), max(lines, 1))


def clause_lines_of(file):
    """The lines of the clauses of a file, each with its place."""
    text = file.read_text()
    plain, lines = hidden(text), text.splitlines()
    for match in CLAUSE.finditer(plain):
        first = plain.count("\n", 0, match.start())
        last = plain.count("\n", 0, end_of(plain, match.end() - 1))
        for at in range(first, last + 1):
            yield f"{file.relative_to(TOP)}:{at + 1}", lines[at]


def duplicates(files):
    """What the command `duplicates` counts in these files, if it is there. It knows them under the ending of Rust."""
    if not shutil.which("duplicates"):
        return "not counted: there is no command `duplicates`"
    with tempfile.TemporaryDirectory() as folder:
        for file in files:
            copy = pathlib.Path(folder) / file.relative_to(TOP / "crates").with_suffix(".rs")
            copy.parent.mkdir(parents=True, exist_ok=True)
            shutil.copy(file, copy)
        run = subprocess.run(["duplicates", "--repo", folder, "--most", "1", "--seconds", "300"], capture_output=True, text=True)
    return (run.stdout.splitlines() or ["not counted"])[0]


def main():
    parser = argparse.ArgumentParser(description=__doc__, formatter_class=argparse.RawDescriptionHelpFormatter)
    parser.add_argument("--list", action="store_true", help="name the long ones, too")
    is_listed = parser.parse_args().list
    crates = sorted(it for it in (TOP / "crates").iterdir() if (it / "src").is_dir())
    files = [(crate, file) for crate in crates for file in sorted((crate / "src").rglob("*.rt"))]
    texts = {file: file.read_text().splitlines() for _, file in files}
    functions = [it for crate, file in files for it in functions_of(crate, file)]
    clauses = [it for _, file in files for it in clause_lines_of(file)]
    counts = {crate.name: sum(it.crate == crate.name for it in functions) for crate in crates}
    broad = [(place, line) for place, line in clauses if len(line) > COLUMNS]
    wide = [it for it in functions if it.parameters > PARAMETERS]
    long = [it for it in functions if it.lines > LINES]
    large = {file: len(lines) for file, lines in texts.items() if len(lines) > FILE_LINES}
    full = {name: count for name, count in counts.items() if count > FUNCTIONS}
    print(f"{words(TOP / 'README.md'):>6} words of README.md")
    print(f"{words(*(TOP / 'docs').rglob('*.md')):>6} words of docs")
    print(f"{len(broad):>6} clause lines of more than {COLUMNS} columns, of {len(clauses)}")
    print(f"{len(wide):>6} functions of more than {PARAMETERS} parameters, of {len(functions)}")
    print(f"{len(long):>6} functions of more than {LINES} lines")
    print(f"{len(large):>6} files of more than {FILE_LINES} lines, of {len(files)}")
    print(f"{len(full):>6} crates of more than {FUNCTIONS} functions, of {len(crates)}")
    print(f"duplicates: {duplicates(texts)}")
    if is_listed:
        for place, line in broad:
            print(f"{place}: {len(line)} columns")
        for it in wide:
            print(f"{it.place}: {it.parameters} parameters")
        for it in long:
            print(f"{it.place}: {it.lines} lines")
        for file, count in large.items():
            print(f"{file.relative_to(TOP)}: {count} lines")
        for name, count in full.items():
            print(f"crates/{name}: {count} functions")


if __name__ == "__main__":
    main()
