#!/usr/bin/env python3
"""Measures what several workers gain: two-phase commit with 7 resource managers, and six counters of 0 to 9.

    tools/speed_up.py [--program FILE] [--runs RUNS] [--cut STATES] [--real-time]

Each model is run by 1, 2 and 4 workers in pieces of STATES states (1024). A row has the seconds, processor seconds and memory
of the best of RUNS runs (3), and the ratio to one worker. Then four runs of the counters at once. The program is
crates/tlacheck/out/tlacheck, which is proved and built if it is not there. Only a quiet machine with
four processors shows anything.

With --real-time each run has real-time priority (chrt, as root): no ordinary process takes a processor from it for long, and a
thread that starts goes to a free processor at once, whereas otherwise two were seen to share one for tens of milliseconds. While
the command runs, such runs may have all of each processor (sysctl kernel.sched_rt_runtime_us=-1), so that a run by four workers
stops all else on a machine of four for seconds. Where the command is killed, that setting stays.
"""
import argparse
import contextlib
import os
import pathlib
import subprocess
import sys
import tempfile
import time

sys.dont_write_bytecode = True

from programs import TOP, built, measured

COUNTERS = """---- MODULE Counters ----
EXTENDS Naturals
VARIABLE count
Init == count = [i \\in 1..6 |-> 0]
Next == \\E i \\in 1..6 : count' = [count EXCEPT ![i] = (@ + 1) % 10]
Inv == \\A i \\in 1..6 : count[i] < 10
====
"""
COUNTERS_CONFIGURATION = "INIT Init\nNEXT Next\nINVARIANT Inv\nCHECK_DEADLOCK FALSE\n"
MANAGERS = "{r1, r2, r3, r4, r5, r6, r7}"

# What the kernel lets runs of real-time priority have of each second of a processor, in microseconds; -1 is all.
REAL_TIME_LIMIT = pathlib.Path("/proc/sys/kernel/sched_rt_runtime_us")
REAL_TIME = ["chrt", "--rr", "1"]


@contextlib.contextmanager
def whole_processors():
    """Lets runs of real-time priority have all of each processor for a while."""
    try:
        before = REAL_TIME_LIMIT.read_text()
        REAL_TIME_LIMIT.write_text("-1")
    except OSError as error:
        raise SystemExit(f"--real-time has to set {REAL_TIME_LIMIT}, as root: {error}") from None
    try:
        yield
    finally:
        REAL_TIME_LIMIT.write_text(before)


def texts():
    """Name, module and configuration of each model, and the last line of its report."""
    commit = TOP / "examples" / "two_phase_commit"
    module, configuration = (commit / f"TwoPhase.{it}" for it in ("tla", "cfg"))
    of_seven = configuration.read_text().replace("{r1, r2, r3}", MANAGERS)
    yield "two-phase commit", module.read_text(), of_seven, "Levels 23, states 296448."
    yield "counters", COUNTERS, COUNTERS_CONFIGURATION, "Levels 55, states 1000000."


def rows(program, runs, name, words, last):
    """A row for each number of workers."""
    alone = None
    for workers in (1, 2, 4):
        tried = [measured([*program, *words, "--quiet", "--workers", str(workers)]) for _ in range(runs)]
        for run in tried:
            if run.report != f"No error.\n{last}\n":
                raise SystemExit(f"WRONG: {name} by {workers} workers: {run.report!r}")
        _, seconds, used, memory, _ = min(tried, key=lambda it: it.seconds)
        alone = alone or seconds
        yield f"| {name} | {workers} | {seconds:.1f} | {used:.1f} | {memory} | {alone / seconds:.2f} |"


def at_once(program, name, words):
    """A line about four runs by one worker each, side by side, which shows what the machine itself loses."""
    begun, ends = time.time(), []
    command, silent = [*program, *words, "--quiet"], subprocess.DEVNULL
    runs = [subprocess.Popen(command, stdout=silent, stderr=silent) for _ in range(4)]
    while len(ends) < len(runs):
        _, status = os.wait()
        if status != 0:
            raise SystemExit(f"WRONG: one of four runs of {name} ended with status {os.waitstatus_to_exitcode(status)}")
        ends.append(time.time() - begun)
    return f"Four runs of {name} at once, by one worker each: {ends[0]:.1f} to {ends[-1]:.1f} seconds."


def print_tables(program, said):
    """Prints the rows of each model, and after those of the counters the line of four runs at once."""
    print("| model | workers | seconds | processor seconds | MiB | ratio to one worker |\n|---|---|---|---|---|---|")
    for name, module, configuration, last in texts():
        with tempfile.TemporaryDirectory() as folder:
            files = [f"{folder}/Model.tla", f"{folder}/Model.cfg"]
            for file, text in zip(files, (module, configuration)):
                pathlib.Path(file).write_text(text)
            words = [*files, "--cut", str(said.cut)]
            for row in rows(program, said.runs, name, words, last):
                print(row, flush=True)
            if name == "counters":
                print(f"\n{at_once(program, name, words)}")


def main():
    parser = argparse.ArgumentParser(description=__doc__, formatter_class=argparse.RawDescriptionHelpFormatter)
    parser.add_argument("--program")
    parser.add_argument("--runs", type=int, default=3)
    parser.add_argument("--cut", type=int, default=1024)
    parser.add_argument("--real-time", action="store_true")
    said = parser.parse_args()
    program = [built("tlacheck", said.program)]
    if not said.real_time:
        print_tables(program, said)
        return
    with whole_processors():
        print_tables([*REAL_TIME, *program], said)


if __name__ == "__main__":
    main()
