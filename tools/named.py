#!/usr/bin/env python3
"""Measures models in which much has a name: LET definitions, arguments, constants by definition. If asked, beside another checker.

    tools/named.py [--program FILE] [--other FILE] [--size small|middle|large] [--runs N] [NAME..]

The models are in tools/bench/idioms. Each also has a name in SHORT: one invariant over 4,001 states, in which one kind of
name is used. Without a NAME it takes all. It prints a row for each: the states, and the processor seconds and MiB of the
best of N runs (1) by one worker. --other names a program that takes MODULE CONFIG --workers N; its numbers follow, how
many times as long ours takes and how many times as much memory, and last the geometric mean and the worst of each, for
each of the two groups. If the two report other numbers of states, the command ends. The program is
crates/tlacheck/out/tlacheck, which is proved and built if it is not there.
"""
import argparse
import math
import pathlib
import re
import sys
import tempfile

sys.dont_write_bytecode = True

from programs import TOP, built, measured

MODELS = TOP / "tools" / "bench" / "idioms"

MAX = r"Max(S) == CHOOSE a \in S : \A b \in S : a >= b" + "\n"

# the definitions and the invariant of each
SHORT = {
    "let_under_a_quantifier": ("", r"LET s == {i*i + x : i \in 1..60} IN \A k \in 1..60 : k*k + x \in s"),
    "chain_of_lets": ("", "LET a == x+1 b == a+a c == b+b d == c+c e == d+d f == e+e IN f > 0"),
    "let_of_a_state_level_set": (
        r"Big == {i \in 1..40 : i > x % 20}",
        r"LET s == Big n == Cardinality(s) IN \A i \in 1..10 : n >= 20 /\ n <= 40",
    ),
    "set_as_argument": (MAX, r"Max({(i*7 + x) % 31 : i \in 1..30}) < 31"),
    "filter_as_argument": (MAX + "m == 10 + (x % 30)", r"Max({i \in 1..40 : i <= m}) < 41"),
    "argument_used_five_times": (
        r"Ok(n) == n >= 0 /\ n <= 100 /\ n # 50 /\ n > 20 /\ n < 90",
        r"Ok(Cardinality({i \in 1..100 : (i+x) % 3 = 0}))",
    ),
    "constant_table_as_argument": (
        r"T == [i \in 1..5, j \in 1..5 |-> (i * j) % 7]" + "\n" + r"Near(v, S) == \E s \in S : s - v < 3 /\ v - s < 3",
        "Near(T[(x % 5) + 1, 1], 0..10)",
    ),
    "constant_filter": (
        r"Quorum == {q \in SUBSET (1..6) : Cardinality(q)*2 > 6}",
        r"\A q \in Quorum : Cardinality(q) + x > 3",
    ),
    "constant_table": (
        r"T == [i \in 1..20 |-> {j \in 1..20 : (i*j) % 7 = 0}]",
        r"\A i \in 1..20 : x \notin T[i] \/ x < 21",
    ),
    "constant_functions": (
        r"Inj == {o \in [1..4 -> 1..4] : \A i, j \in 1..4 : i # j => o[i] # o[j]}",
        r"\E o \in Inj : o[1] = (x % 4) + 1",
    ),
    "constant_maximum": (MAX + r"Top == Max({(i*7) % 31 : i \in 1..30})", "x + Top >= Top"),
    "constant_subsets": ("", r"\A q \in SUBSET (1..6) : Cardinality(q) + x < 10000"),
}

FRAME = """---- MODULE Short ----
EXTENDS Integers, FiniteSets
VARIABLE x
{}
Init == x \\in 0..4000
Next == x' = x
Inv == {}
====
"""


def files_of(name, size, folder):
    """The two files of a model."""
    if name not in SHORT:
        return MODELS / f"{name}.tla", MODELS / f"{name}.{size}.cfg"
    module, config = folder / "Short.tla", folder / "Short.cfg"
    module.write_text(FRAME.format(*SHORT[name]))
    config.write_text("INIT Init\nNEXT Next\nINVARIANT Inv\n")
    return module, config


def best(runs, words):
    """Of these runs the one of least processor seconds."""
    return min((measured(words) for _ in range(runs)), key=lambda it: it.processor_seconds)


def states_of(run):
    """How many states a report counts."""
    return re.search(r"states (\d+)\.", run.report).group(1)


def row(said, program, name, folder):
    """Prints a model's row, and returns how many times as long ours takes, and as much memory."""
    files = files_of(name, said.size, folder)
    ours = best(said.runs, [program, *files, "--quiet", "--workers", "1"])
    cells = [name, states_of(ours), f"{ours.processor_seconds:.2f}", ours.memory]
    ratios = None
    if said.other:
        theirs = best(said.runs, [said.other, *files, "--quiet", "--workers", "1"])
        if states_of(theirs) != states_of(ours):
            raise SystemExit(f"WRONG: {name}: {states_of(ours)} states and {states_of(theirs)}")
        times = ours.processor_seconds / max(theirs.processor_seconds, 0.001)
        memory = ours.kibibytes / theirs.kibibytes
        ratios = times, memory
        cells += [f"{theirs.processor_seconds:.2f}", theirs.memory, f"{times:.2f}", f"{memory:.2f}"]
    print("| " + " | ".join(map(str, cells)) + " |", flush=True)
    return ratios


def group(said, program, names, folder):
    """Prints the rows of some models, and what they have together."""
    rows = {name: row(said, program, name, folder) for name in names}
    if said.other and rows:
        for what, ratios in zip(["time", "memory"], zip(*rows.values())):
            mean = math.exp(sum(map(math.log, ratios)) / len(ratios))
            worst, name = max(zip(ratios, rows))
            print(f"{what}: mean {mean:.2f}, worst {worst:.2f} ({name})", flush=True)
        print(flush=True)


def main():
    parser = argparse.ArgumentParser(description=__doc__, formatter_class=argparse.RawDescriptionHelpFormatter)
    parser.add_argument("--program")
    parser.add_argument("--other")
    parser.add_argument("--size", choices=["small", "middle", "large"], default="middle")
    parser.add_argument("--runs", type=int, default=1)
    parser.add_argument("names", nargs="*", metavar="NAME")
    said = parser.parse_args()
    models = sorted(it.stem for it in MODELS.glob("*.tla"))
    unknown = [it for it in said.names if it not in models and it not in SHORT]
    if unknown:
        raise SystemExit(f"no model {unknown[0]}: {', '.join([*models, *SHORT])}")
    program = built("tlacheck", said.program)
    asked = said.names or [*models, *SHORT]
    with tempfile.TemporaryDirectory(prefix="named-") as folder:
        for names in (models, SHORT):
            group(said, program, [it for it in names if it in asked], pathlib.Path(folder))
    return 0


if __name__ == "__main__":
    sys.exit(main())
