#!/usr/bin/env python3
"""Counts the instructions that a run takes for what it writes to standard error.

    tools/progress_cost.py [--program FILE]

It compares a run with progress lines and the same run with --quiet, in pieces of 1,024 states and of one; then a run with
--coverage and the same run without; and a short run and the same run with --quiet.

The program is crates/tlacheck/out/tlacheck, which is proved and built if it is not there. valgrind counts; under it the
run takes long enough for a line every few seconds.
"""

import argparse
import pathlib
import re
import subprocess
import sys
import tempfile

sys.dont_write_bytecode = True

from programs import built

MODULE = """---- MODULE Grid ----
EXTENDS Integers
VARIABLES x, y
Init == x = 0 /\\ y = 0
Next == \\/ x' = (x + 1) % SIDE /\\ y' = y
        \\/ y' = (y + 1) % SIDE /\\ x' = x
Inv == x < SIDE
====
"""
CONFIGURATION = "INIT Init\nNEXT Next\nINVARIANT Inv\n"


def instructions(words):
    """The number of instructions of a run, and of its progress lines."""
    line = ["valgrind", "--tool=callgrind", "--callgrind-out-file=/dev/null", *words]
    errors = subprocess.run(line, check=True, capture_output=True, text=True).stderr
    return int(re.search(r"Collected : (\d+)", errors).group(1)), len(re.findall(r"tlacheck: \d+ s, level", errors))


def written(folder, side):
    """The files of a grid with sides of this length."""
    module, configuration = folder / f"Grid{side}.tla", folder / f"Grid{side}.cfg"
    module.write_text(MODULE.replace("SIDE", str(side)))
    configuration.write_text(CONFIGURATION)
    return [str(module), str(configuration)]


def compared(what, less, more):
    """Prints how many instructions more the second run takes than the first."""
    base, _ = instructions(less)
    whole, lines = instructions(more)
    share = 100 * (whole - base) / base
    print(f"{what}: {base} instructions, {whole} with {lines} progress lines, {share:.3f} percent more")


def main():
    parser = argparse.ArgumentParser(description=__doc__, formatter_class=argparse.RawDescriptionHelpFormatter)
    parser.add_argument("--program")
    program = built("tlacheck", parser.parse_args().program)
    with tempfile.TemporaryDirectory() as folder:
        large, small = (written(pathlib.Path(folder), side) for side in (300, 44))
        for cut in ("1024", "1"):
            words = [program, *large, "--cut", cut]
            compared(f"progress lines, in pieces of {cut}", [*words, "--quiet"], words)
        compared("--coverage of 90,000 states", [program, *large], [program, *large, "--coverage"])
        compared("1,936 states", [program, *small, "--quiet"], [program, *small])


if __name__ == "__main__":
    main()
