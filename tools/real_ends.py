#!/usr/bin/env python3
"""Runs tlacheck where files, memory and time really end, and checks what it reports.

    tools/real_ends.py [--program FILE] [PART..]

The parts are `outputs` (a full device, pipes that nobody reads), `inputs` (a folder, no file, a pipe that never ends, a
file that grows), `masses` (64 MiB of one thing as the module and as the configuration), `memory` (a million states within
ten limits of memory) and `signals` (an interrupt). Without a name it runs all. Each run is bounded in time, and each input
in size. The program is crates/tlacheck/out/tlacheck, which is proved and built if it is not there.
"""

import argparse
import fcntl
import os
import pathlib
import random
import resource
import signal
import subprocess
import sys
import tempfile
import threading
import time

sys.dont_write_bytecode = True

from programs import built

MIB = 1 << 20

# The most reads of a file.
MOST_READS = 1_000_000

CONFIG = b"INIT Init\nNEXT Next\n"

COUNTER = b"""---- MODULE M ----
EXTENDS Integers
VARIABLE x
Init == x = 0
Next == x' = (x + 1) % 3
====
"""
COUNTED = b"No error.\nLevels 3, states 3.\n"

# A trace of some 5,000 states, longer than what a pipe holds.
LONG = b"""---- MODULE M ----
EXTENDS Integers
VARIABLE x
Init == x = 0
Next == x < 5000 /\\ x' = x + 1
====
"""

MILLION = b"""---- MODULE M ----
EXTENDS Integers
VARIABLES x, y, z
Init == x = 0 /\\ y = 0 /\\ z = 0
Next == \\/ x < 99 /\\ x' = x + 1 /\\ UNCHANGED <<y, z>>
        \\/ y < 99 /\\ y' = y + 1 /\\ UNCHANGED <<x, z>>
        \\/ z < 99 /\\ z' = z + 1 /\\ UNCHANGED <<x, y>>
====
"""
MILLION_CONFIG = CONFIG + b"CHECK_DEADLOCK FALSE\n"
MILLION_COUNTED = b"No error.\nLevels 298, states 1000000.\n"

ENDLESS = b"""---- MODULE M ----
EXTENDS Integers
VARIABLE x
Init == x = 0
Next == x' = x + 1
====
"""

NO_MEMORY = (22, b"Out of memory.\n", b"")
NO_WORKER = (22, b"A worker could not be started.\n", b"")
NO_REPORT = (21, b"", b"")
UNWRITTEN = b"tlacheck: cannot write the report\n"


def cannot_read(name, cause=None):
    lines = [f"tlacheck: cannot read {name}"] + ([f"cause: {cause}"] if cause else [])
    return (21, b"", "".join(f"{line}\n" for line in lines).encode())


class Ends:
    """The program, a folder for its files, and what was found wrong."""

    def __init__(self, program, folder):
        self.program, self.folder = program, pathlib.Path(folder)
        self.runs = self.wrong = 0
        self.put("M.tla", COUNTER)
        self.put("M.cfg", CONFIG)

    def put(self, name, text):
        (self.folder / name).write_bytes(text)

    def start(self, *words, memory=None, quiet=True, **how):
        """Starts the program on these words, within `memory` bytes if given."""

        def limit():
            resource.setrlimit(resource.RLIMIT_CORE, (0, 0))
            if memory:
                resource.setrlimit(resource.RLIMIT_AS, (memory, memory))

        streams = {"stdin": subprocess.DEVNULL, "stdout": subprocess.PIPE, "stderr": subprocess.PIPE, **how}
        flags = ["--quiet"] if quiet else []
        return subprocess.Popen([self.program, *flags, *words], cwd=self.folder, preexec_fn=limit, **streams)

    def run(self, *words, seconds=60, **how):
        """The status of a run and what it wrote, or None where it had no end in time."""
        started = self.start(*words, **how)
        try:
            out, errors = started.communicate(timeout=seconds)
        except subprocess.TimeoutExpired:
            started.kill()
            started.communicate()
            return None
        return (started.returncode, out, errors)

    def expect(self, what, found, *wanted):
        """Prints what a run said, and whether it may say that."""
        self.runs += 1
        right = found in wanted
        self.wrong += not right
        if found is None:
            said = "no end in time"
        else:
            status, out, errors = found
            lines = ((out or b"") + (errors or b"")).decode(errors="replace").splitlines()
            said = f"status {status}" + (f", {lines[0][:100]}" if lines else ", no line")
        print(f"{'' if right else 'WRONG: '}{what}: {said}", flush=True)

    def outputs(self):
        """A failed write ends the program with status 21, and it says so unless it is quiet."""
        self.put("Long.tla", LONG)
        for name in ("M.tla", "Long.tla"):
            with open("/dev/full", "wb") as full:
                self.expect(f"{name} to a full device", self.run(name, "M.cfg", stdout=full), (21, None, b""))
                found = self.run(name, "M.cfg", stdout=full, quiet=False)
                self.expect(f"{name} to a full device, not quietly", found, (21, None, UNWRITTEN))
            reads, writes = os.pipe()
            os.close(reads)
            self.expect(f"{name} to a closed pipe", self.run(name, "M.cfg", stdout=writes), (21, None, b""))
            os.close(writes)
        started = self.start("Long.tla", "M.cfg")
        started.stdout.read(10)
        started.stdout.close()
        errors = started.stderr.read()
        self.expect("Long.tla to a pipe that is closed after ten bytes", (started.wait(60), None, errors), (21, None, b""))
        words = ["sh", "-c", 'exec "$0" --quiet M.tla M.cfg >&-', self.program]
        ran = subprocess.run(words, cwd=self.folder, stderr=subprocess.PIPE, timeout=60)
        self.expect("M.tla to no output", (ran.returncode, None, ran.stderr), (21, None, b""))
        with open("/dev/full", "wb") as full:
            self.expect("--help to a full device", self.run("--help", stdout=full), (21, None, b""))

    def inputs(self):
        """The program says what it can't read, or not to its end, and why unless it is quiet."""
        (self.folder / "Folder").mkdir()
        for what, words, name, cause, limit in (
            ("a folder as the module", ("Folder", "M.cfg"), "Folder", "it is a folder", None),
            ("a folder as the configuration", ("M.tla", "Folder"), "Folder", "it is a folder", None),
            ("no file as the module", ("None.tla", "M.cfg"), "None.tla", "there is no such file", None),
            ("no file as the configuration", ("M.tla", "None.cfg"), "None.cfg", "there is no such file", None),
            ("a module without end", ("/dev/zero", "M.cfg"), "/dev/zero", "out of memory", 512 * MIB),
        ):
            self.expect(what, self.run(*words, memory=limit, quiet=False), cannot_read(name, cause))
            self.expect(f"{what}, quietly", self.run(*words, memory=limit), cannot_read(name))
        os.mkfifo(self.folder / "Fifo")
        for size, memory, cause in ((1, None, "no end within 1000000 reads"), (65_536, 512 * MIB, "out of memory")):
            found = self.beside(lambda _: self.feed(size), "Fifo", "M.cfg", memory=memory, quiet=False)
            self.expect(f"a pipe that gives {size} bytes a read and has no end", found, cannot_read("Fifo", cause))
        self.put("Grows.tla", COUNTER)
        found = self.beside(self.grow, "Grows.tla", "M.cfg")
        self.expect("a file that grows after the closing line", found, (0, COUNTED, b""))

    def beside(self, work, *words, **how):
        """A run, beside a thread that works until the run has ended."""
        ends = threading.Event()
        worker = threading.Thread(target=work, args=(ends,))
        worker.start()
        found = self.run(*words, seconds=120, **how)
        ends.set()
        worker.join()
        return found

    def feed(self, size):
        """Writes pieces into the pipe, each for one read, until nobody reads: more than may be read, and few more."""
        piece = b"a" * size
        pipe = os.open(self.folder / "Fifo", os.O_WRONLY)
        fcntl.fcntl(pipe, fcntl.F_SETFL, os.O_DIRECT)
        try:
            for _ in range(MOST_READS + 100):
                os.write(pipe, piece)
            print("WRONG: the pipe was read to the end")
            self.wrong += 1
        except BrokenPipeError:
            pass
        finally:
            os.close(pipe)

    def grow(self, ends):
        """Adds lines to the file, at most 64 MiB, until the run has ended."""
        with open(self.folder / "Grows.tla", "ab", buffering=0) as file:
            for _ in range(1024):
                if ends.is_set():
                    return
                file.write(b"a\n" * 32_768)

    def masses(self):
        """64 MiB of one thing, in a module and as the configuration, have the report of their first fault."""
        size = 64 * MIB
        noise = random.Random(1).randbytes(size)
        as_module, as_config = "Module refused: ", "Configuration refused: "
        unnamed = "Configuration refused: C2 at line 1, column 6: Init."
        masses = [
            ("zeros", b"", bytes(size), as_module + "L2 at line 2, column 1.", as_config + "C1 at line 1, column 1."),
            ("opening parentheses", b"ASSUME ", b"(" * size, as_module + "P4 at line 2, column 208.", as_config + "C1 at line 1, column 1."),
            ("quotes", b"", b'"' * size, as_module + "P1 at line 2, column 1.", as_config + "C1 at line 1, column 1."),
            ("backslashes", b"", b"\\" * size, as_module + "P1 at line 2, column 1.", as_config + "C1 at line 1, column 1."),
            ("line feeds", b"", b"\n" * size, unnamed, as_config + f"C9 at line {size + 1}, column 1."),
            ("random bytes", b"", noise, None, None),
            ("one name", b"", b"a" * size, as_module + "P1 at line 3, column 1.", as_config + "C1 at line 1, column 1."),
            ("one comment", b"", b"(*" + b"a" * (size - 4) + b"*)", unnamed, as_config + f"C9 at line 1, column {size + 1}."),
        ]
        for name, before, mass, module_says, config_says in masses:
            if module_says is None:
                module_says = as_module + "L1" + place_of_no_utf8(b"---- MODULE M ----\n" + before + mass)
                config_says = as_config + "C1" + place_of_no_utf8(mass)
            self.put("Mass.tla", b"---- MODULE M ----\n" + before + mass + b"\n====\n")
            self.expect(f"{name} in a module", self.mass("Mass.tla", "M.cfg"), refused(module_says), NO_MEMORY)
            self.put("Mass.tla", mass)
            self.expect(f"{name} as a configuration", self.mass("M.tla", "Mass.tla"), refused(config_says), NO_MEMORY)

    def mass(self, *words):
        return self.run(*words, seconds=300, memory=8192 * MIB)

    def memory(self):
        """Within any limit of memory there is a report, or `Out of memory.`."""
        self.put("Million.tla", MILLION)
        self.put("Million.cfg", MILLION_CONFIG)
        for size in (4, 8, 16, 32, 64, 128, 256, 512, 1024, 4096):
            for workers in ("1", "4"):
                words = ["Million.tla", "Million.cfg", "--workers", workers]
                what = f"a million states by {workers} in {size} MiB"
                if self.loads(size * MIB):
                    found = self.run(*words, seconds=300, memory=size * MIB)
                    self.expect(what, found, (0, MILLION_COUNTED, b""), NO_MEMORY, NO_WORKER)
                else:
                    print(f"{what}: the system can't load the program")

    def loads(self, memory):
        """Whether the system's loader has enough memory for the program, which then begins."""
        try:
            return self.run("--help", memory=memory)[0] == 0
        except (OSError, subprocess.SubprocessError):
            return False

    def signals(self):
        """An interrupt ends a long search at once."""
        self.put("Endless.tla", ENDLESS)
        for workers in ("1", "4"):
            started = self.start("Endless.tla", "M.cfg", "--workers", workers)
            time.sleep(1)
            began = time.monotonic()
            started.send_signal(signal.SIGINT)
            try:
                out, errors = started.communicate(timeout=10)
                found = (started.returncode, out, errors) if time.monotonic() - began < 1 else None
            except subprocess.TimeoutExpired:
                started.kill()
                started.communicate()
                found = None
            self.expect(f"an interrupt, {workers} workers", found, (-signal.SIGINT, b"", b""))


def refused(line):
    return (20, line.encode() + b"\n", b"")


def place_of_no_utf8(text):
    """The place of the first bytes that are no character. A tab goes on to the next column 8n + 1."""
    try:
        text.decode()
    except UnicodeDecodeError as error:
        lines = text[: error.start].decode().split("\n")
        column = 1
        for character in lines[-1]:
            column = column + 1 if character != "\t" else (column + 7) // 8 * 8 + 1
        return f" at line {len(lines)}, column {column}."
    return None


def main():
    parser = argparse.ArgumentParser(description=__doc__, formatter_class=argparse.RawDescriptionHelpFormatter)
    parser.add_argument("--program")
    parser.add_argument("parts", nargs="*")
    said = parser.parse_args()
    parts = said.parts or ["outputs", "inputs", "masses", "memory", "signals"]
    with tempfile.TemporaryDirectory() as folder:
        ends = Ends(built("tlacheck", said.program), folder)
        for part in parts:
            getattr(ends, part)()
    print(f"{ends.runs} runs, {ends.wrong} wrong")
    return min(ends.wrong, 1)


if __name__ == "__main__":
    sys.exit(main())
