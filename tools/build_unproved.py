#!/usr/bin/env python3
"""Builds a program without proving anything, for daily use, from what `rt try` compiles.

    tools/build_unproved.py [--crate NAME] [--measure] OUT

NAME is tlacheck if left out. The program at OUT is UNPROVED: nothing says that it does what the contracts say. It stops at
an index out of bounds and at an overflow, as under `rt try`, but it has no limit of time or output. The proved program is
crates/tlacheck/out/tlacheck, after `rt run`.

With --measure the program has no checks either, so it is about as fast as the proved one, which takes long to build. Use it
only to measure: what a wrong program does then is undefined.

`rt try` runs over a folder of links to the kit's, in which the compiler and the linker are replaced by two short scripts. They
leave out the address sanitizer, which would make the program several times slower, optimise, and keep what is linked.
"""
import argparse
import os
import pathlib
import shutil
import subprocess
import sys
import tempfile

sys.dont_write_bytecode = True

from programs import TOP

# What `--version` says, and what it says in the program that this makes: texts of the same length.
VERSION = b"proved with rattle-kit-13f when built by rt run; a build by rt try is not proved"
UNPROVED = b"UNPROVED: built by tools/build_unproved.py, with no proof, from what rt try made"

COMPILER = """#!{python} -IS
import os, re, subprocess, sys
words = [it for it in sys.argv[1:] if not it.startswith("-fsanitize=")]
words = [("-O2" if {measure} else "-O3") if it == "-O0" else it for it in words]
if {measure} and "ir" in words:
    at = words.index("ir") + 1
    checked, plain = words[at] + ".checked.ll", words[at] + ".plain.ll"
    subprocess.run([{real!r}, words[0], "-S", "-emit-llvm", "-O0", "-x", "ir", words[at], "-o", checked], check=True)
    with open(checked) as lines, open(plain, "w") as kept:
        kept.writelines(it for it in lines if not re.match({check!r}, it))
    words[at] = plain
os.execv({real!r}, [{real!r}, *words])
"""

# A line of LLVM's code that only checks, or that fills a variable which has no value yet.
CHECK = r'\s*call void (@llvm\.memset\.\S+\(ptr \S+, i8 -86,|@"rattle-(llvm-checks|try)::)'

LINKER = """#!{python} -IS
import shutil, subprocess, sys
words = sys.argv[1:]
if "--whole-archive" in words:
    del words[words.index("--whole-archive") : words.index("--no-whole-archive") + 1]
status = subprocess.call([{real!r}, *words])
if status == 0:
    shutil.copy(words[words.index("-o") + 1], {out!r})
sys.exit(status)
"""


def kit():
    """The folder of the kit whose `rt` is on the path."""
    found = shutil.which("rt")
    if not found:
        raise SystemExit("no rt on the path")
    return pathlib.Path(os.path.realpath(found)).parent.parent


def link_all(source, target, but=()):
    """Puts a link to each file and folder of one folder into another."""
    target.mkdir(exist_ok=True)
    for it in source.iterdir():
        if it.name not in but:
            (target / it.name).symlink_to(it)


def copied(real, folder, out, measure):
    """A copy of the kit's folder, with the compiler and the linker replaced, and without the prover, which only gives hints."""
    link_all(real, folder, ("bin", "toolchain"))
    link_all(real / "bin", folder / "bin", ("rt", "rtlib.py", "rattle"))
    for name in ("rt", "rtlib.py"):
        shutil.copy(real / "bin" / name, folder / "bin" / name)
    (folder / "bin" / "rattle").write_text("#!/bin/sh\n")
    link_all(real / "toolchain", folder / "toolchain", ("bin",))
    tools = real / "toolchain" / "bin"
    link_all(tools, folder / "toolchain" / "bin", ("clang", "ld.lld"))
    for name, text in (("clang", COMPILER), ("ld.lld", LINKER)):
        words = {"python": sys.executable, "real": str(tools / name), "out": str(out), "measure": measure, "check": CHECK}
        script = folder / "toolchain" / "bin" / name
        script.write_text(text.format(**words))
        script.chmod(0o755)
    (folder / "bin" / "rattle").chmod(0o755)


def main():
    parser = argparse.ArgumentParser(description=__doc__, formatter_class=argparse.RawDescriptionHelpFormatter)
    parser.add_argument("--crate", default="tlacheck")
    parser.add_argument("--measure", action="store_true", help="leave out all checks: only to measure")
    parser.add_argument("out")
    said = parser.parse_args()
    out = pathlib.Path(said.out).resolve()
    out.unlink(missing_ok=True)
    with tempfile.TemporaryDirectory(prefix="unproved-") as folder:
        copied(kit(), pathlib.Path(folder), out, said.measure)
        words = [f"{folder}/bin/rt", "try", "--steps", "1", "--seconds", "1", "--", "--help"]
        ran = subprocess.run(words, cwd=TOP / "crates" / said.crate, capture_output=True, text=True, errors="replace", check=False)
    if not out.is_file():
        sys.exit(f"{ran.stdout}{ran.stderr}nothing was built")
    out.write_bytes(out.read_bytes().replace(VERSION, UNPROVED))
    if said.crate == "tlacheck" and UNPROVED not in out.read_bytes():
        sys.exit(f"{out} says that it is proved, which it is not: mend VERSION in this file")
    print(f"{out} is UNPROVED: use it to look, and the program that rt run proves to rely on")
    return 0


if __name__ == "__main__":
    sys.exit(main())
