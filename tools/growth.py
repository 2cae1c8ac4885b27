#!/usr/bin/env python3
"""Measures how the time of a search grows with its states and with the parts of a specification.

    tools/growth.py [--program FILE] [--runs N] [KIND..]

The kinds are states (counters of a larger and larger range), variables, invariants, disjuncts, members (of a set in each
state), arguments (of a function in each state) and definitions (each uses the one before). Without a name it takes all.
It prints for each size the seconds, the MiB, and the growth of the time from the size before divided by the growth of the
size: 1 is linear. Of N runs (3), by one worker each, the shortest counts. The program is crates/tlacheck/out/tlacheck, which
is proved and built if it is not there.
"""
import sys

sys.dont_write_bytecode = True

from programs import print_rows

CONFIGURATION = "INIT Init\nNEXT Next\nINVARIANT Inv\nCHECK_DEADLOCK FALSE\n"


def module(*lines):
    return "\n".join(["---- MODULE M ----", "EXTENDS Naturals", *lines, "====", ""])


def listed(bullet, parts):
    """These parts as a junction list with this bullet."""
    return "".join(f"\n  {bullet} {part}" for part in parts)


def clock(most, *lines):
    """A clock that counts to `most` and begins again, with further lines before the invariant's."""
    return module("VARIABLE x", "Init == x = 0", f"Next == x' = (x + 1) % {most}", *lines)


def states(range_):
    return module(
        "VARIABLE c", "Init == c = [i \\in 1..6 |-> 0]", f"Next == \\E i \\in 1..6 : c' = [c EXCEPT ![i] = (@ + 1) % {range_}]",
        f"Inv == \\A i \\in 1..6 : c[i] < {range_}",
    )


def variables(count):
    names = [f"x{i}" for i in range(count)]
    return module(
        f"VARIABLES y, {', '.join(names)}", "Init ==" + listed("/\\", ["y = 0", *(f"{it} = 0" for it in names)]),
        "Next ==" + listed("/\\", ["y' = (y + 1) % 20000", *(f"{it}' = {it}" for it in names)]), "Inv == y >= 0",
    )


def invariants(count):
    return clock(20_000, "Inv ==" + listed("/\\", (f"x + {i} >= {i}" for i in range(count))))


def disjuncts(count):
    return module(
        "VARIABLE x", "Init == x = 0",
        "Next ==" + listed("\\/", (f"x % {count} = {i} /\\ x' = (x + 1) % 20000" for i in range(count))), "Inv == x >= 0",
    )


def members(count):
    return module(
        "VARIABLES s, x", f"Init == s = 1..{count} /\\ x = 0",
        f"Next == x' = (x + 1) % 2000 /\\ s' = (s \\ {{x}}) \\cup {{x + {count}}}", "Inv == x >= 0",
    ).replace("x' = (x + 1) % 2000", "x < 2000 /\\ x' = x + 1")


def arguments(count):
    return module(
        "VARIABLES f, x", f"Init == f = [i \\in 1..{count} |-> 0] /\\ x = 0",
        f"Next == x < 2000 /\\ x' = x + 1 /\\ f' = [f EXCEPT ![(x % {count}) + 1] = @ + 1]", "Inv == x >= 0",
    )


def definitions(count):
    chain = (f"D{i} == D{i - 1} + 1" for i in range(1, count))
    return clock(20_000, "D0 == x", *chain, f"Inv == D{count - 1} >= 0")


KINDS = {
    "states": (states, (5, 7, 10, 13), lambda it: it**6),
    "variables": (variables, (10, 100, 1_000), int),
    "invariants": (invariants, (10, 100, 1_000), int),
    "disjuncts": (disjuncts, (10, 100, 1_000), int),
    "members": (members, (100, 1_000, 10_000), int),
    "arguments": (arguments, (100, 1_000, 10_000), int),
    "definitions": (definitions, (10, 50, 190), int),
}


def rows(kind, run):
    """A row for each size of a kind."""
    text, parameters, size = KINDS[kind]
    before = None
    for parameter in parameters:
        _, seconds, _, memory = run(text(parameter), CONFIGURATION, "No error.")
        grown = f"{seconds / before[0] / (size(parameter) / before[1]):.2f}" if before else ""
        before = seconds, size(parameter)
        yield f"| {kind} | {size(parameter):,} | {seconds:.2f} | {memory} | {grown} |"


if __name__ == "__main__":
    print_rows(__doc__, KINDS, "| number of | size | seconds | MiB | growth |", rows)
