#!/usr/bin/env python3
"""Lists the functions of a crate whose proofs have the most steps, by what the last `rt check` of the crate kept.

    tools/heavy_proofs.py CRATE [COUNT]

Prints the kilobytes of the steps of each of the COUNT (20) largest, the drops of types among them. Where a function is far
larger than its neighbours, the reason mostly is a large tree that it may have to drop.
"""
import argparse
import re
import sys

sys.dont_write_bytecode = True

from programs import TOP


def steps_of(crate):
    """The function and the size of each module of steps that was kept."""
    kept = TOP / "crates" / crate / "out" / "incremental"
    for file in kept.glob(f"*/Rattle-{crate}-proofs.*.oantt"):
        path = file.name[len(f"Rattle-{crate}-proofs."):-len(".oantt")]
        found = re.fullmatch(r"(?:(.*)\.)?(\+[^.]*)\.Lts-(.*)|(.*)\.Lts", path)
        if found and found[4]:
            yield found[4].replace(".", "::"), file.stat().st_size
        elif found:
            yield "::".join([*(found[1] or "").split("."), *found[3].split("-")]).strip(":"), file.stat().st_size


def main():
    parser = argparse.ArgumentParser(description=__doc__, formatter_class=argparse.RawDescriptionHelpFormatter)
    parser.add_argument("crate")
    parser.add_argument("count", nargs="?", type=int, default=20)
    said = parser.parse_args()
    found = sorted(steps_of(said.crate), key=lambda it: -it[1])
    if not found:
        sys.exit(f"nothing is kept of {said.crate}: run rt check in crates/{said.crate} first")
    for name, size in found[: said.count]:
        print(f"{size // 1024:>8}  {name}")


if __name__ == "__main__":
    main()
