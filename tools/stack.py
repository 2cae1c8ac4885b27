#!/usr/bin/env python3
"""Measures the stack that a run needs, for each case that is nested deep and for long lists.

    tools/stack.py [--program FILE] [--count N]

Prints the least stack in KiB, of the first thread and of each other, with which a run by two workers prints the same report
and ends with the same status as with 8,192 KiB. It does so for texts that are deep for one layer alone, for the five cases of
acceptance that need most, and for each list with N parts (10,000) and with a tenth of them, since a list must not take stack.
The status is 0 if four times as much is still within a thread's stack of 8,192 KiB. The program is crates/tlacheck/out/tlacheck, which is proved and built
if it is not there.
"""
import argparse
import itertools
import pathlib
import resource
import subprocess
import sys
import tempfile

sys.dont_write_bytecode = True

from acceptance_cases import CASES, active_cases
from long_lists import CONFIGURATION, listed, module, named
from programs import built

A_THREADS = 8192
STEP = 16


def within(kib, words):
    """The exit status and the report of a run with a stack of this size."""
    def bound():
        resource.setrlimit(resource.RLIMIT_STACK, (kib * 1024, resource.RLIM_INFINITY))
    run = subprocess.run(words, stdout=subprocess.PIPE, stderr=subprocess.DEVNULL, preexec_fn=bound, check=False)
    return run.returncode, run.stdout


def least(words):
    """The least stack with which a run ends as it does with that of a thread, in steps of 16 KiB."""
    ended = within(A_THREADS, words)
    if ended[0] < 0 or not ended[1]:
        raise SystemExit(f"WRONG: status {ended[0]}, {len(ended[1])} bytes of report within {A_THREADS} KiB: {words}")
    low, high = 0, A_THREADS // STEP
    while high - low > 1:
        middle = (low + high) // 2
        if within(middle * STEP, words) == ended:
            high = middle
        else:
            low = middle
    return high * STEP


def nested():
    """Name, module and configuration of the cases that are nested deep."""
    for name, kind, *_ in active_cases():
        folder = CASES / name
        if kind == "texts" and name.startswith("depths/"):
            texts = (folder / "texts").read_bytes().split(b"\f")
            for number in range(0, len(texts) - 1, 2):
                yield f"{name}, {number // 2 + 1}", texts[number], texts[number + 1]
        elif kind.isdigit() and ("_deep" in name or "nested" in name):
            yield name, (folder / "module.tla").read_bytes(), (folder / "model.cfg").read_bytes()


def doubled(form):
    """Definitions that together nest a form in itself as often as the sum of their numbers says."""
    lines = [f"F1(e) == {form}"]
    lines += [f"F{2 * number}(e) == F{number}(F{number}(e))" for number in (1, 2, 4, 8, 16, 32, 64, 128)]
    return "\n".join(lines) + "\n"


def layers():
    """Which crates a text is deep for, module and configuration."""
    plain = CONFIGURATION.encode()
    parentheses = "(" * 199 + "0" + ")" * 199
    yield "tla_expressions, tla_names: 200 deep, in a definition that isn't used", module(before=f"D == {parentheses}\n"), plain
    path = doubled("\\A v \\in {TRUE} : e") + "D == F256(F32(F8(F1(TRUE))))\n"
    yield "tla_expand: a path of 300 nodes that isn't evaluated", module(before=path + "ASSUME TRUE \\/ D\n"), plain
    yield "tla_eval: the same, evaluated", module(before=path + "ASSUME D\n"), plain
    yield "tla_enum: an action of such a path", module("x + 1").replace(b"\nInit", b"\n" + path.encode() + b"Init").replace(b"x' = x + 1", b"D /\\ x' = 0"), plain
    braces = "{" * 64 + "1" + "}" * 64
    yield "tla_config, tla_value: a value 64 deep", module(before="CONSTANT c\n", after="IF c = c THEN 1 ELSE 0"), plain + f"CONSTANT c = {braces}\n".encode()


def needed(program, folder, module, configuration):
    paths = folder / "M.tla", folder / "M.cfg"
    for path, text in zip(paths, (module, configuration)):
        path.write_bytes(text)
    return least([program, *map(str, paths), "--quiet", "--workers", "2"])


def main():
    parser = argparse.ArgumentParser(description=__doc__, formatter_class=argparse.RawDescriptionHelpFormatter)
    parser.add_argument("--program")
    parser.add_argument("--count", type=int, default=10_000)
    said = parser.parse_args()
    program = built("tlacheck", said.program)
    with tempfile.TemporaryDirectory() as name:
        folder = pathlib.Path(name)
        for case, *texts in layers():
            print(f"| {case} | {needed(program, folder, *texts)} |", flush=True)
        cases = sorted(((needed(program, folder, *texts), case) for case, *texts in nested()), reverse=True)
        for kib, case in cases[:5]:
            print(f"| {case} | {kib} |", flush=True)
        most = cases[0][0]
        few_and_many = (itertools.chain(listed(count), named(count)) for count in (said.count // 10, said.count))
        for (case, *few), (_, *many) in zip(*few_and_many):
            kib = needed(program, folder, *few), needed(program, folder, *many)
            print(f"| {said.count // 10} and {said.count} {case} | {kib[0]} and {kib[1]} |", flush=True)
            most = max(most, *kib)
    print(f"{len(cases)} nested texts; the most that a run needs is {most} KiB.")
    return int(4 * most > A_THREADS)


if __name__ == "__main__":
    sys.exit(main())
