#!/usr/bin/env python3
"""Counts the cases of crates/acceptance, and checks that each folder of a group is in the group's list once.

    tools/acceptance_cases.py

The status is 1 if a group or a case isn't listed, is listed twice, or has no folder.
"""
import argparse
import collections
import sys

sys.dont_write_bytecode = True

from programs import TOP

CASES = TOP / "crates" / "acceptance" / "data"


def active_cases():
    """The words of each case's line, with its group before its name: GROUP/NAME, what is compared, and options."""
    for group in (CASES / "active").read_text().split():
        for line in (CASES / group / "active").read_text().splitlines():
            name, *rest = line.split()
            yield [f"{group}/{name}", *rest]


def main():
    argparse.ArgumentParser(description=__doc__, formatter_class=argparse.RawDescriptionHelpFormatter).parse_args()
    listed = [name for name, *_ in active_cases()]
    folders = {str(it.relative_to(CASES)) for it in CASES.glob("*/*") if it.is_dir()}
    wrong = [f"{it} isn't listed" for it in sorted(folders - set(listed))]
    wrong += [f"{it} has no folder" for it in sorted(set(listed) - folders)]
    wrong += [f"{it} is listed twice" for it, count in collections.Counter(listed).items() if count > 1]
    for kind, count in sorted(collections.Counter(kind if not kind.isdigit() else "report" for _, kind, *_ in active_cases()).items()):
        print(f"{count:>6} {kind}")
    for it in wrong:
        print(f"WRONG: {it}")
    print(f"{len(listed)} cases, {len(wrong)} wrong")
    return min(1, len(wrong))


if __name__ == "__main__":
    sys.exit(main())
