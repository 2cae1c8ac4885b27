"""The built programs, and what a run of one takes, for the commands that run them."""

import argparse
import functools
import os
import pathlib
import subprocess
import sys
import tempfile
import time
from typing import NamedTuple

TOP = pathlib.Path(__file__).resolve().parent.parent

TIME = "/usr/bin/time"


class Run(NamedTuple):
    """What a run printed, and what it took. Memory is the most that it held, in MiB and in KiB."""

    report: str
    seconds: float
    processor_seconds: float
    memory: int
    kibibytes: int


def built(name, file=None):
    """This file, or the program of this crate, which is proved and built if it isn't there."""
    if file:
        return str(pathlib.Path(file).resolve())
    crate = TOP / "crates" / name
    found = crate / "out" / name
    if not found.is_file():
        print(f"proving and building {name}", file=sys.stderr, flush=True)
        subprocess.run(["rt", "run", "--", "--help"], cwd=crate, check=True, stdout=subprocess.DEVNULL)
    return str(found)


def measured(words):
    """Runs a program that has to end with status 0. With any other, or by a signal, this command ends.

    GNU time measures the memory, if it is there. Else the least that is measured is what this command itself takes, about
    14 MiB, since Linux counts that for the program, too.
    """
    begun = time.time()
    with tempfile.NamedTemporaryFile("r") as held:
        timed = [TIME, "-q", "-f", "%M", "-o", held.name] if os.path.exists(TIME) else []
        with subprocess.Popen([*timed, *words], stdout=subprocess.PIPE) as run:
            report = run.stdout.read().decode()
            _, status, used = os.wait4(run.pid, 0)
            run.returncode = os.waitstatus_to_exitcode(status)
        kibibytes = int(held.read().split()[-1]) if timed else used.ru_maxrss
    seconds = time.time() - begun
    if run.returncode != 0:
        raise SystemExit(f"WRONG: {' '.join(map(str, words))} ended with status {run.returncode}: {report[:200]!r}")
    return Run(report, seconds, used.ru_utime + used.ru_stime, kibibytes // 1024, kibibytes)


def shortest(program, folder, runs, module, configuration, report):
    """The shortest of some runs of the program on these texts, by one worker. Each report has to begin with `report`."""
    paths = folder / "M.tla", folder / "M.cfg"
    for path, text in zip(paths, (module, configuration)):
        path.write_text(text)
    tried = [measured([program, *map(str, paths), "--quiet", "--workers", "1"]) for _ in range(runs)]
    for run in tried:
        if not run.report.startswith(report):
            raise SystemExit(f"WRONG: {run.report!r} of\n{module}")
    return min(tried, key=lambda it: it.seconds)


def print_rows(doc, kinds, heading, rows):
    """Reads a command's arguments, which are --program, --runs and kinds, and prints a table of the rows of each kind.

    `rows` is called with a kind and a function that takes a module, a configuration and the beginning of a report, and
    answers the shortest run.
    """
    parser = argparse.ArgumentParser(description=doc, formatter_class=argparse.RawDescriptionHelpFormatter)
    parser.add_argument("--program")
    parser.add_argument("--runs", type=int, default=3)
    parser.add_argument("kinds", nargs="*", default=list(kinds), metavar="KIND")
    said = parser.parse_args()
    program = built("tlacheck", said.program)
    columns = "|---" * (heading.count("|") - 1) + "|"
    print(f"{heading}\n{columns}")
    with tempfile.TemporaryDirectory() as name:
        run = functools.partial(shortest, program, pathlib.Path(name), said.runs)
        for kind in said.kinds:
            for row in rows(kind, run):
                print(row, flush=True)
