#!/usr/bin/env python3
"""Measures six models in three sizes each, by one worker and by four, if asked beside another checker.

    tools/compare.py [--program FILE] [--other FILE] [--runs N] [MODEL..]

The models are in tools/bench/models: counters, dining philosophers, a filter lock, two-phase commit, the alternating bit
protocol and gossip. Without a name it takes all. It prints a row for each size and number of workers: seconds, processor
seconds and MiB of the best of N runs (1), by processor seconds; the microseconds a state; and their growth from the size
before. --other names a program that takes MODULE CONFIG --workers N; its processor seconds and MiB follow, and the ratios.
If a report has another number of states than the model, or a run another status than 0, the command ends. The program is
crates/tlacheck/out/tlacheck, which is proved and built if it is not there.
"""
import argparse
import re
import sys
import tempfile

sys.dont_write_bytecode = True

from programs import TOP, built, measured

# the constants of each size, and how many states they lead to
SIZES = {
    "counters": [("K = 5 M = 8", 32_768), ("K = 6 M = 8", 262_144), ("K = 6 M = 10", 1_000_000)],
    "philosophers": [("N = 8", 6_561), ("N = 10", 59_049), ("N = 11", 177_147)],
    "filter": [("N = 3", 288), ("N = 4", 4_752), ("N = 5", 88_560)],
    "twophase": [("N = 5", 8_832), ("N = 6", 50_816), ("N = 7", 296_448)],
    "altbit": [("L = 10 D = 3", 16_170), ("L = 20 D = 3", 111_510), ("L = 30 D = 3", 358_050)],
    "gossip": [("N = 4", 189), ("N = 5", 9_152), ("N = 6", 1_092_473)],
}


def behaviour(name):
    """The statements of the configuration that name the model's behaviour."""
    before = "TP" if name == "twophase" else ""
    return f"INIT {before}Init\nNEXT {before}Next\n"


def best(runs, words, states):
    """Of these runs the one of least processor seconds."""
    tried = []
    for _ in range(runs):
        run = measured(words)
        if not re.search(rf"\b{states}\b", run.report):
            raise SystemExit(f"WRONG: {' '.join(words)}: {run.report!r}")
        tried.append(run)
    return min(tried, key=lambda it: it.processor_seconds)


def row(said, program, name, size, states, workers, files, before):
    """A row for one size and number of workers, and the microseconds a state; `before` has those of the size before."""
    ours = best(said.runs, [program, *files, "--quiet", "--workers", workers], states)
    used, memory = ours.processor_seconds, ours.memory
    each = 1e6 * used / states
    grown = f"{each / before:.2f}" if before else ""
    cells = [name, size, f"{states:,}", workers, f"{ours.seconds:.2f}", f"{used:.2f}", memory, f"{each:.1f}", grown]
    if said.other:
        other = best(said.runs, [said.other, *files, "--workers", workers], states)
        theirs, their_memory = other.processor_seconds, other.memory
        cells += [f"{theirs:.2f}", their_memory, f"{used / max(theirs, 0.01):.2f}", f"{memory / max(their_memory, 1):.2f}"]
    return "| " + " | ".join(map(str, cells)) + " |", each


def main():
    parser = argparse.ArgumentParser(description=__doc__, formatter_class=argparse.RawDescriptionHelpFormatter)
    parser.add_argument("--program")
    parser.add_argument("--other")
    parser.add_argument("--runs", type=int, default=1)
    parser.add_argument("models", nargs="*", default=list(SIZES), metavar="MODEL")
    said = parser.parse_args()
    program = built("tlacheck", said.program)
    heads = ["model", "size", "states", "workers", "seconds", "processor seconds", "MiB", "microseconds a state", "growth"]
    heads += ["the other's processor seconds", "its MiB", "ratio of time", "ratio of memory"] if said.other else []
    print("| " + " | ".join(heads) + " |\n" + "|---" * len(heads) + "|")
    for name in said.models:
        module = TOP / "tools" / "bench" / "models" / f"{name}.tla"
        before = {}
        for size, states in SIZES[name]:
            with tempfile.NamedTemporaryFile("w", suffix=".cfg") as configuration:
                configuration.write(f"CONSTANTS {size}\n{behaviour(name)}INVARIANT Inv\nCHECK_DEADLOCK FALSE\n")
                configuration.flush()
                for workers in ("1", "4"):
                    files = [str(module), configuration.name]
                    cells, before[workers] = row(said, program, name, size, states, workers, files, before.get(workers))
                    print(cells, flush=True)


if __name__ == "__main__":
    main()
