#!/usr/bin/env python3
"""Measures whether a pattern in the states makes their table slow.

    tools/patterns.py [--program FILE] [--runs N] [KIND..]

A model's initial states follow one pattern, and each has a step to itself, so that a run spends nearly all its time in the
table of states. The kinds are numbers, pairs, triples, sequences, sets and functions. Without a name it takes all. The first
pattern of a kind is the plainest. Of N runs (3), by one worker each, the shortest counts. The program is crates/tlacheck/out/tlacheck,
which is proved and built if it is not there.
"""
import sys

sys.dont_write_bytecode = True

from programs import print_rows

CONFIGURATION = "INIT Init\nNEXT Next\nCHECK_DEADLOCK FALSE\n"

COUNT = 2**18


def each(expression):
    """The set of what an expression is for the numbers from 0 to COUNT - 1."""
    return f"{{{expression} : i \\in 0..{COUNT - 1}}}"


def digits(base, count, times=1):
    """The digits of `i`, each multiplied by `times`."""
    return ", ".join(f"{times} * ((i \\div {base**place}) % {base})" for place in reversed(range(count)))


KINDS = {
    "numbers": {
        "one after the other": each("i"),
        "negative": each("0 - i"),
        "multiples of 256": each("i * 256"),
        "multiples of 65,536": each("i * 65536"),
        "multiples of 2^32": each(f"i * {2**32}"),
        "multiples of 2^45": each(f"i * {2**45}"),
        "squares": each("i * i"),
    },
    "pairs": {
        "of a square": each("<<i \\div 512, i % 512>>"),
        "twice the same": each("<<i, i>>"),
        "opposites": each("<<i, 0 - i>>"),
        "multiples of 2^32": each(f"<<i * {2**32}, i * {2**32}>>"),
        "one a multiple of 2^45": each(f"<<i, i * {2**45}>>"),
        "one is 0": each("<<0, i>>"),
        "the other is 0": each("<<i, 0>>"),
    },
    "triples": {
        "of a cube": each(f"<<{digits(64, 3)}>>"),
        "rising": each("<<i, i + 1, i + 2>>"),
        "a sum of 0": each("<<i, 0 - 2 * i, i>>"),
    },
    "sequences": {
        "of 18 numbers 0 and 1": each(f"<<{digits(2, 18)}>>"),
        "of 18 multiples of 2^32": each(f"<<{digits(2, 18, 2**32)}>>"),
    },
    "sets": {
        "of 18 numbers": "SUBSET (0..17)",
        "of 18 multiples of 65,536": "SUBSET {i * 65536 : i \\in 0..17}",
        "of 18 powers of 2": f"SUBSET {{{', '.join(str(2**it) for it in range(18))}}}",
        "three in a row": each("{i, i + 1, i + 2}"),
        "a number and its double": each("{i, 2 * i}"),
    },
    "functions": {
        "numbers at numbers": "[1..9 -> 0..3]",
        "numbers at some of six numbers": "UNION {[D -> 1..7] : D \\in SUBSET (1..6)}",
        "greater numbers at some of six": "UNION {[D -> 101..107] : D \\in SUBSET (1..6)}",
        "strings at numbers": '[1..9 -> {"a", "b", "c", "d"}]',
        "truth values at numbers": "[1..18 -> BOOLEAN]",
        "sets at numbers": "[1..9 -> SUBSET {0, 1}]",
    },
}


def module(states):
    return f"---- MODULE M ----\nEXTENDS Integers\nVARIABLE s\nInit == s \\in {states}\nNext == s' = s\n====\n"


def rows(kind, run):
    """A row for each pattern of a kind."""
    for pattern, states in KINDS[kind].items():
        seconds = run(module(states), CONFIGURATION, f"No error.\nLevels 1, states {COUNT}.\n").seconds
        yield f"| {kind} | {pattern} | {seconds:.2f} | {1e6 * seconds / COUNT:.1f} |"


if __name__ == "__main__":
    print_rows(__doc__, KINDS, "| kind | pattern | seconds | microseconds a state |", rows)
