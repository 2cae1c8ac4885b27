#!/usr/bin/env python3
"""Lists the functions of a library for which the prover writes the longest texts before it proves anything.

    tools/prover_texts.py CRATE [COUNT]

Prints the sum, and then the megabytes of each of the COUNT (20) longest, from what the last `rt ci` or `rt lib` left in
crates/CRATE/out. A statement's text has the whole type of each place that it touches, and a type has the whole of each type to
which it refers, also in a variant; of a box or a list it has only the name.
"""
import argparse
import sys
from collections import Counter

sys.dont_write_bytecode = True

from programs import TOP


def function_of(name):
    """The function whose text this is."""
    name = name.removeprefix("proofs/").removesuffix("/View").removesuffix("/Given")
    return name.replace("/Lts-", "::").removesuffix("/Lts").replace("/", "::")


def steps_of(file):
    """The function and the length of each text of steps."""
    name = ""
    for line in file:
        if line.startswith(b'"'):
            name = line.decode().strip().strip('"')
        elif line.startswith(b'{"Lts"'):
            yield function_of(name), len(line)


def main():
    parser = argparse.ArgumentParser(description=__doc__, formatter_class=argparse.RawDescriptionHelpFormatter)
    parser.add_argument("crate")
    parser.add_argument("count", nargs="?", type=int, default=20)
    said = parser.parse_args()
    made = TOP / "crates" / said.crate / "out" / "rlib" / f"{said.crate}.rlib" / "lang" / "antt" / "made.json"
    if not made.is_file():
        sys.exit(f"{made} isn't there: run rt ci first, or rt lib in crates/{said.crate}")
    found = Counter()
    with open(made, "rb") as file:
        for name, length in steps_of(file):
            found[name] += length
    print(f"{sum(found.values()) / 1e6:>8.1f}  in all")
    for name, length in found.most_common(said.count):
        print(f"{length / 1e6:>8.1f}  {name}")


if __name__ == "__main__":
    main()
