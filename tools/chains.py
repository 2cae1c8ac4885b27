#!/usr/bin/env python3
"""Measures what a level costs: chains of levels of one state each, by 1, 2 and 4 workers.

    tools/chains.py [--program FILE] [LEVELS..]

Prints the seconds, processor seconds and memory of each run, and the microseconds of a level. The program is crates/tlacheck/out/tlacheck,
which is proved and built if it is not there.
"""
import argparse
import pathlib
import sys
import tempfile

sys.dont_write_bytecode = True

from programs import built, measured

MODULE = "---- MODULE Chain ----\nEXTENDS Integers\nVARIABLE x\nInit == x = 1\nNext == x < {levels} /\\ x' = x + 1\n====\n"
CONFIGURATION = "INIT Init\nNEXT Next\nCHECK_DEADLOCK FALSE\n"


def main():
    parser = argparse.ArgumentParser(description=__doc__, formatter_class=argparse.RawDescriptionHelpFormatter)
    parser.add_argument("--program")
    parser.add_argument("levels", nargs="*", type=int, default=[100_000, 1_000_000])
    said = parser.parse_args()
    program, wrong = built("tlacheck", said.program), 0
    with tempfile.TemporaryDirectory() as folder:
        module, configuration = f"{folder}/Chain.tla", f"{folder}/Chain.cfg"
        pathlib.Path(configuration).write_text(CONFIGURATION)
        for levels in said.levels:
            pathlib.Path(module).write_text(MODULE.format(levels=levels))
            for workers in (1, 2, 4):
                text, seconds, used, memory, _ = measured([program, module, configuration, "--workers", str(workers)])
                wrong += text != f"No error.\nLevels {levels}, states {levels}.\n"
                each = used / levels * 1e6
                print(f"{levels} levels, {workers} worker{'s' * (workers > 1)}: {seconds:.2f} s, {used:.2f} processor s, {memory} MiB, {each:.1f} microseconds a level", flush=True)
    return min(wrong, 1)


if __name__ == "__main__":
    sys.exit(main())
