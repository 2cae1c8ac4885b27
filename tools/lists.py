#!/usr/bin/env python3
"""Measures how time and memory grow with the lists of a text.

    tools/lists.py [--program FILE] [--seconds N] [COUNT..]

Prints a row for each kind of list: for 1,000, 10,000 and 100,000 parts (or the given counts) the seconds and MiB of a run by
one worker, and the code if the text is beyond a limit. A run of more than 100 processor seconds is ended, and longer lists
of its kind are skipped. The status is 1 if a run ended by another signal, or with a status that doesn't fit its report. The
program is crates/tlacheck/out/tlacheck, which is proved and built if it is not there.
"""
import argparse
import itertools
import os
import pathlib
import re
import resource
import signal
import subprocess
import sys
import tempfile
import time

sys.dont_write_bytecode = True

from programs import built
from long_lists import listed, named


# How a report shows a code, and the status of each kind of report.
CODE = re.compile(r"^(Module refused:|Configuration refused:|Fault) (\w+)")
STATUSES = {None: 0, "Module refused:": 20, "Configuration refused:": 20, "Fault": 12}


def measured(words, most):
    """The seconds and MiB of a run, with the code of its report; what is wrong with it; or None if its time was over."""
    def bound():
        resource.setrlimit(resource.RLIMIT_CPU, (most, most + 1))
    before = time.time()
    with subprocess.Popen(words, stdout=subprocess.PIPE, text=True, preexec_fn=bound) as run:
        report = run.stdout.read()
        _, status, used = os.wait4(run.pid, 0)
        run.returncode = os.waitstatus_to_exitcode(status)
    if run.returncode == -signal.SIGXCPU:
        return None
    found = CODE.search(report)
    wanted = STATUSES[found[1] if found else None]
    if run.returncode != wanted:
        return f"WRONG: status {run.returncode} after {report[:100]!r}"
    code = f", {found[2]}" if found else ""
    return f"{time.time() - before:.2f} s, {used.ru_maxrss // 1024} MiB{code}"


def main():
    parser = argparse.ArgumentParser(description=__doc__, formatter_class=argparse.RawDescriptionHelpFormatter)
    parser.add_argument("--program")
    parser.add_argument("--seconds", type=int, default=100)
    parser.add_argument("counts", nargs="*", type=int, default=[1_000, 10_000, 100_000])
    said = parser.parse_args()
    program = built("tlacheck", said.program)
    print("| list of | " + " | ".join(f"{count:,}" for count in said.counts) + " |")
    print("|---" * (len(said.counts) + 1) + "|")
    kinds = zip(*(itertools.chain(listed(count), named(count)) for count in said.counts))
    wrong = False
    with tempfile.TemporaryDirectory() as name:
        paths = pathlib.Path(name, "M.tla"), pathlib.Path(name, "M.cfg")
        for kind in kinds:
            row, found = [], True
            for _, *texts in kind:
                for path, text in zip(paths, texts):
                    path.write_bytes(text)
                found = found and measured([program, *map(str, paths), "--quiet", "--workers", "1"], said.seconds)
                row.append(found or f"over {said.seconds} s")
                wrong |= "WRONG" in row[-1]
            print(f"| {kind[0][0]} | " + " | ".join(row) + " |", flush=True)
    return int(wrong)


if __name__ == "__main__":
    sys.exit(main())
