#!/usr/bin/env python3
"""Runs the gate and prints what it took: the processor seconds of each crate, by kind of work, and the whole's minutes, the most
memory of its provers at one time, and the disk.

    tools/minutes.py [--anew]

Each proof gets one processor. RT_JOBS is the number of proofs at one time: all processors, of four or more all but one, if memory
allows. With more processors a proof takes many more processor seconds and hardly less time. With rattle-kit-13f, what an earlier
run on this machine passed is proved again only if it changed, or with --anew; the line `rt: ok` shows how much was done. With
rattle-kit-13b each run does all, and there is no --anew. The gate's own lines come first; the one that counts what passed is
printed last.

Most virtual machines share their processors with others, so that a second does less than at best. To show this, a loop that always
does the same is timed throughout: the last lines have the ratio of its average to its best time, and what the processor minutes
would be if each second did as much as the best.
"""
import argparse
import os
import re
import shutil
import subprocess
import sys
import threading
import time

sys.dont_write_bytecode = True

from programs import TOP

KINDS = ("proof", "tests", "wrong bodies")

# What a proof may need of memory, in bytes.
ROOM = 5 * 2**30

# The seconds between two timings of the loop.
BETWEEN = 20


def lanes():
    """The number of proofs at one time, each on one processor: all, of four or more all but one, if memory allows."""
    with open("/proc/meminfo", encoding="utf-8") as file:
        free = 1024 * int(re.search(r"MemAvailable:\s+(\d+)", file.read()).group(1))
    processors = len(os.sched_getaffinity(0))
    return max(1, min(processors if processors < 4 else processors - 1, free // ROOM))


def kind_of(words):
    """The kind of work of a prover's process. The builds of a program count with its proof."""
    if "--test" in words:
        return "tests"
    if "src/main.rt" in words:
        return "proof"
    return "wrong bodies" if words[1] == "check" else "proof"


def processes(above):
    """The prover's processes below one: identity, crate, kind, processor seconds so far and bytes of memory."""
    parents, found = {}, []
    for entry in filter(str.isdigit, os.listdir("/proc")):
        try:
            with open(f"/proc/{entry}/stat", encoding="utf-8") as file:
                fields = file.read().rsplit(")", 1)[1].split()
            with open(f"/proc/{entry}/cmdline", encoding="utf-8") as file:
                words = file.read().split("\0")
        except (OSError, UnicodeDecodeError):
            continue
        parents[entry] = fields[1]
        if "--crate-name" in words:
            seconds = (int(fields[11]) + int(fields[12])) / os.sysconf("SC_CLK_TCK")
            name = words[words.index("--crate-name") + 1]
            memory = int(fields[21]) * os.sysconf("SC_PAGE_SIZE")
            found.append((entry, (entry, fields[19]), name, kind_of(words), seconds, memory))

    def is_below(entry):
        while entry in parents:
            if entry == above:
                return True
            entry = parents[entry]
        return False

    return [rest for entry, *rest in found if is_below(entry)]


def loop():
    """The processor seconds of a loop that always does the same."""
    begun = time.thread_time()
    sum(number * number for number in range(1_000_000))
    return time.thread_time() - begun


def shared(loops, minutes):
    """A line about the speed of the processors."""
    slower = sum(loops) / len(loops) / min(loops)
    return f"a loop took {slower:.2f} times as long on the average as at its best: {minutes / slower:.0f} processor minutes at the best"


def table(seen, minutes, most):
    """Lines of a table: a row for each crate, the dearest first, and what the whole took."""
    sums = {}
    for name, kind, seconds, _ in seen.values():
        row = sums.setdefault(name, dict.fromkeys(KINDS, 0.0))
        row[kind] += seconds
    yield "| crate | " + " | ".join(KINDS) + " |"
    yield "|---" * (len(KINDS) + 1) + "|"
    for name, row in sorted(sums.items(), key=lambda it: -sum(it[1].values())):
        yield f"| `{name}` | " + " | ".join(f"{row[kind]:.0f}" for kind in KINDS) + " |"
    total = sum(sum(row.values()) for row in sums.values())
    yield f"{minutes:.0f} minutes, {total / 60:.0f} processor minutes, on {os.cpu_count()} processors"
    yield shared(most["loops"], total / 60)
    yield f"{most['memory'] / 2**30:.0f} GB of memory and {most['disk'] / 2**30:.0f} GB of disk at most"


def sample(gate, seen, most):
    """Records, every second until the gate ends, what its processes have taken."""
    before = shutil.disk_usage(TOP).used
    begun = time.time()
    while gate.poll() is None:
        if len(most["loops"]) * BETWEEN <= time.time() - begun:
            most["loops"].append(loop())
        found = processes(str(gate.pid))
        for identity, *what in found:
            seen[identity] = what
        most["memory"] = max(most["memory"], sum(memory for *_, memory in found))
        most["disk"] = max(most["disk"], shutil.disk_usage(TOP).used - before)
        time.sleep(1)


def printed(gate):
    """Prints the gate's lines as they come, all but the one that counts what passed, which it returns."""
    count = []
    for line in gate.stdout:
        if re.fullmatch(r"\d+ passed, \d+ failed\s*", line):
            count = [line.rstrip()]
        else:
            print(line, end="", flush=True)
    return count


def main():
    parser = argparse.ArgumentParser(description=__doc__, formatter_class=argparse.RawDescriptionHelpFormatter)
    parser.add_argument("--anew", action="store_true", help="prove and try all again, whatever earlier runs kept")
    command = ["rt", "ci"] + ["--anew"] * parser.parse_args().anew
    begun, seen, most = time.time(), {}, {"memory": 0, "disk": 0, "loops": [loop()]}
    ways = {"stdout": subprocess.PIPE, "stderr": subprocess.STDOUT, "text": True, "errors": "replace"}
    settings = {"RT_JOBS": str(lanes()), **os.environ}
    with subprocess.Popen(command, cwd=TOP, env=settings, **ways) as gate:
        sampler = threading.Thread(target=sample, args=(gate, seen, most), daemon=True)
        sampler.start()
        count = printed(gate)
        gate.wait()
    sampler.join()
    print(*table(seen, (time.time() - begun) / 60, most), *count, sep="\n", flush=True)
    return gate.returncode


if __name__ == "__main__":
    sys.exit(main())
