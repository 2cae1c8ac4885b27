#!/usr/bin/env python3
"""Refuses each request for memory in turn, and each start of a thread, and checks what is reported.

    tools/refuse_memory.py [--jobs N] [--every] [--program FILE] [--calls FILE] [calls] [CASE..]

A case is a folder of crates/acceptance/data, such as search/deadlock. Without names it takes worked specifications, limits
and levels, the shortest case of each other kind of answer and refusal, command lines that are refused, and the calls. With
--every it takes all cases of one text, which takes hours. `calls` are the calls of the libraries in crates/acceptance, each
on an input of its own.
tlacheck is run over a case by one worker and by two. Request N for memory is refused, for N = 1, 2, .. until a run meets
no refusal; then request N and all after it; then start N of a thread. Each report has to be the one with ample memory,
`Out of memory.`, or `A worker could not be started.` where a start was refused; at least one start has to give the last.
Before the check begins it is the line that the command line or a file couldn't be read. A call has to answer as with ample
memory, or that there is no memory; then what it borrowed has to be unchanged.

The programs are crates/tlacheck/out/tlacheck and crates/acceptance/out/acceptance, each of which is proved and built
if it is not there. cc compiles a small library that is loaded before the C library; it is no part of a program.
"""

import argparse
import collections
import concurrent.futures
import os
import pathlib
import re
import subprocess
import sys
import tempfile

sys.dont_write_bytecode = True

from acceptance_cases import CASES, active_cases
from programs import TOP, built

CALLS = TOP / "crates/acceptance"

# Worked specifications, and limits and levels that the shortest cases don't reach.
WORKED = """
    examples/counter_modulo_three search/deadlock search/deadlock_unchecked actions/fault_in_a_later_disjunct
    examples/translated_algorithm examples/jugs limits/expansion_301_deep limits/parentheses_200_deep
    limits/constant_nested_too_deep configurations/constant_too_large limits/set_of_more_than_a_million
    limits/value_65_deep_in_an_action search/limit_at_the_initial_states levels/invariant_with_a_prime levels/prime_twice
    levels/assumption_of_a_variable levels/temporal_formula_as_an_invariant specifications/specification_of_another_form
""".split()

CREWS = [["--workers", "1"], ["--workers", "2", "--cut", "1"]]

# The most requests of a sweep, and the most seconds of a run.
MOST = 200_000
SECONDS = 20

LIBRARY = r"""
#define _GNU_SOURCE
#include <dlfcn.h>
#include <errno.h>
#include <pthread.h>
#include <stdatomic.h>
#include <stddef.h>
#include <stdlib.h>
#include <sys/mman.h>
#include <sys/syscall.h>
#include <unistd.h>

extern void *__libc_malloc(size_t);
extern void *__libc_calloc(size_t, size_t);
extern void *__libc_realloc(void *, size_t);
extern void *__libc_memalign(size_t, size_t);

typedef int (*starter)(pthread_t *, const pthread_attr_t *, void *(*)(void *), void *);

static starter starts_thread;
static long request, start, behind;
static int tells = -1;
static _Atomic long requests, starts;
static __thread int starting;

static long number(const char *name) {
    const char *text = getenv(name);
    return text ? atol(text) : 0;
}

__attribute__((constructor)) static void begin(void) {
    starts_thread = (starter)dlsym(RTLD_NEXT, "pthread_create");
    request = number("REFUSED_REQUEST");
    start = number("REFUSED_START");
    behind = number("REFUSED_BEHIND");
    tells = (int)number("REFUSED_TELLS");
    alarm((unsigned)number("REFUSED_SECONDS"));
}

static int refused(_Atomic long *count, long which, char kind) {
    long n = atomic_fetch_add(count, 1) + 1;
    if (which == 0 || n < which || (n > which && !behind)) return 0;
    int kept = errno;
    if (n == which && write(tells, &kind, 1) != 1) abort();
    errno = kept;
    return 1;
}

static int no_memory(void) {
    if (!refused(&requests, request, starting ? 's' : 'm')) return 0;
    errno = ENOMEM;
    return 1;
}

void *malloc(size_t size) { return no_memory() ? NULL : __libc_malloc(size); }
void *calloc(size_t count, size_t size) { return no_memory() ? NULL : __libc_calloc(count, size); }
void *realloc(void *old, size_t size) { return no_memory() ? NULL : __libc_realloc(old, size); }
void *memalign(size_t to, size_t size) { return no_memory() ? NULL : __libc_memalign(to, size); }
void *aligned_alloc(size_t to, size_t size) { return memalign(to, size); }
int posix_memalign(void **out, size_t to, size_t size) {
    void *made = memalign(to, size);
    if (made == NULL) return ENOMEM;
    *out = made;
    return 0;
}

void *mmap(void *at, size_t size, int prot, int flags, int fd, off_t from) {
    if (no_memory()) return MAP_FAILED;
    return (void *)syscall(SYS_mmap, at, size, prot, flags, fd, from);
}

int pthread_create(pthread_t *thread, const pthread_attr_t *how, void *(*what)(void *), void *with) {
    if (refused(&starts, start, 's')) return EAGAIN;
    starting = 1;
    int status = starts_thread(thread, how, what, with);
    starting = 0;
    return status;
}
"""

# The greatest number that each option takes.
LARGEST = {"--workers": 64, "--cut": 65536, "--max-states": 16777216}

NO_LINE = (21, b"tlacheck: out of memory\n")
NO_MEMORY = (22, b"Out of memory.\n")
NO_WORKER = (22, b"A worker could not be started.\n")

AMPLE, MEMORY, WORKER = "as with ample memory", "`Out of memory.`", "`A worker could not be started.`"
LINE, INPUTS, WANT = "for the command line", "for its inputs", "out of memory"

# What tlacheck may report if something is refused, in the order of its stages.
SAYS = {
    NO_LINE: LINE,
    (21, b"tlacheck: cannot read module.tla\n"): "for the module's file",
    (21, b"tlacheck: cannot read model.cfg\n"): "for the configuration's file",
    NO_MEMORY: MEMORY,
    NO_WORKER: WORKER,
}

# Out of memory, as each library answers it, and that no worker could be started.
WANTS = "V3 NoMemory Memory E16 S1".split()
UNSTARTED = "S2"

Case = collections.namedtuple("Case", "name folder status options report size")

# What is run, what it reports with ample memory, what else it may report, and what it reports if a start is refused.
Subject = collections.namedtuple("Subject", "name words folder ample says unstarted")

# What was refused, `m` for memory or `s` for a start, and the status and output of the run.
Outcome = collections.namedtuple("Outcome", "told said")


def cases():
    """The cases of one text."""
    for name, status, *options in active_cases():
        folder = CASES / name
        if status.isdigit() and (folder / "report").is_file():
            report = (folder / "report").read_bytes()
            size = sum((folder / it).stat().st_size for it in ("module.tla", "model.cfg"))
            if report:
                yield Case(name, folder, int(status), options, report, size)


def kind_of(case):
    """What sort of answer or refusal a case has: the first line of its report without names, numbers and places."""
    first = case.report.decode().splitlines()[0]
    code = re.match(r"(Module|Configuration) refused: \w+|Fault \w+", first)
    return code[0] if code else re.sub(r"Invariant \w+|\d+", "", first)


def chosen(names, every):
    """The cases of these names, or a selection of all."""
    found = {it.name: it for it in cases()}
    for name in names:
        if name not in found:
            raise SystemExit(f"no case of one text: {name}")
    if names:
        return [found[it] for it in names]
    if every:
        return list(found.values())
    worked = [found[it] for it in WORKED]
    kinds = {kind_of(it) for it in worked}
    shortest = {}
    for case in found.values():
        kind = kind_of(case)
        if kind not in kinds and case.size < shortest.setdefault(kind, case).size:
            shortest[kind] = case
    return worked + list(shortest.values())


def limit_of(case):
    """The case's own words on the greatest number of states."""
    words = case.options
    return [word for at, word in enumerate(words) if "--max-states" in words[max(0, at - 1) : at + 1]]


def checks(program, names, every):
    """The checks of these cases by one worker and by two."""
    for case in chosen(names, every):
        for crew in CREWS:
            words = [program, "module.tla", "model.cfg", "--quiet", *crew, *limit_of(case)]
            name = " ".join([case.name, *crew])
            yield Subject(name, words, case.folder, (case.status, case.report), SAYS, WORKER)


def bad_numbers(program):
    """Command lines with a number beyond its limit."""
    for option, most in LARGEST.items():
        words = [option, str(most + 1)]
        line = [program, "module.tla", "model.cfg", *words]
        says = f"tlacheck: bad number\nhint: {option} takes a number from 1 to {most}\n"
        yield Subject(" ".join(words), line, CASES, (21, says.encode()), {NO_LINE: LINE}, WORKER)


def refused_answer(block, code):
    """What is printed of a call that answers this code, and leaves what it borrowed unchanged."""
    lines = [f"  answer {code}" if it.startswith("  answer") else it for it in block]
    lent = [it.replace("lent", "left", 1) for it in lines if it.startswith("  lent")]
    return "".join(f"{it}\n" for it in [it for it in lines if not it.startswith("  left")] + lent).encode()


def calls(program):
    """The calls of the libraries. The stored run of their program has what each prints with ample memory."""
    blocks = re.findall(r"^\S.*\n(?: .*\n)*", (CALLS / "stdout").read_text(), re.M)
    for block in map(str.splitlines, blocks):
        name = block[0]
        if name in ("cases", "codes"):
            continue
        ample = (0, "".join(f"{it}\n" for it in block).encode())
        says = {(22, b""): LINE}
        says |= {(22, f"{name}\n  no inputs {code}\n".encode()): INPUTS for code in WANTS}
        says |= {(22, refused_answer(block, code)): WANT for code in WANTS}
        says |= {(22, refused_answer(block, UNSTARTED)): WORKER}
        yield Subject(f"call {name}", [program, name], CALLS, ample, says, WORKER)


def subjects(said):
    """What is run."""
    names = [it for it in said.cases if it != "calls"]
    if names or not said.cases:
        program = built("tlacheck", said.program)
        yield from checks(program, names, said.every)
        if not names:
            yield from bad_numbers(program)
    if not names or "calls" in said.cases:
        yield from calls(built("acceptance", said.calls))


class Harness:
    """The runs of programs over the library that refuses."""

    def __init__(self, library, jobs):
        self.library, self.jobs = library, jobs
        self.pool = concurrent.futures.ThreadPoolExecutor(jobs)
        self.refusals = collections.Counter()
        self.subjects = self.wrong = 0

    def run(self, subject, refused):
        """A run in which something is refused."""
        reads, writes = os.pipe()
        try:
            how = {"LD_PRELOAD": self.library, "REFUSED_TELLS": str(writes), "REFUSED_SECONDS": str(SECONDS)}
            ran = subprocess.run(
                subject.words,
                cwd=subject.folder,
                env={**how, **refused},
                pass_fds=[writes],
                stdin=subprocess.DEVNULL,
                stdout=subprocess.PIPE,
                stderr=subprocess.STDOUT,
            )
        finally:
            os.close(writes)
            told = os.read(reads, 16).decode()
            os.close(reads)
        return Outcome(told, (ran.returncode, ran.stdout))

    def meaning(self, subject, outcome, behind):
        """What a run reports, or None if it may not report that."""
        if outcome.said == subject.ample:
            # (a part of a next level, and a shard that is dropped, need no thread of their own)
            return AMPLE
        said = subject.says.get(outcome.said)
        if outcome.told == "s" and not behind:
            return said if said == subject.unstarted else None
        return said if outcome.told else None

    def print_wrong(self, subject, what, outcome):
        """Prints a run that reports something wrong."""
        self.wrong += 1
        status, text = outcome.said
        print(f"WRONG: {subject.name}: {what} gives status {status} and\n{text.decode(errors='replace')}", flush=True)

    def sweep(self, subject, variable, behind=False):
        """Refuses the first, the second, and so on, until a run meets no refusal."""
        what = variable + (" and all after it" if behind else "")
        met = {}
        step = 16 * self.jobs
        for first in range(1, MOST, step):
            numbers = range(first, first + step)
            also = {"REFUSED_BEHIND": "1"} if behind else {}
            settings = [{f"REFUSED_{variable.upper()}": str(it), **also} for it in numbers]
            outcomes = self.pool.map(lambda it: self.run(subject, it), settings)
            for number, outcome in zip(numbers, outcomes):
                meaning = self.meaning(subject, outcome, behind)
                if not outcome.told and meaning == AMPLE:
                    return self.print_sweep(subject, what, met)
                if meaning is None:
                    self.print_wrong(subject, f"{what} {number} refused", outcome)
                met.setdefault(meaning, []).append(number)
        self.wrong += 1
        print(f"WRONG: {subject.name}: more than {MOST} of {what}")
        return None

    def print_sweep(self, subject, what, met):
        """Prints and counts the reports of a sweep. Its stages come in order."""
        stages = [it for it in dict.fromkeys(subject.says.values()) if it in met and it != WORKER]
        for one, later in zip(stages, stages[1:]):
            if met[one][-1] > met[later][0]:
                self.wrong += 1
                print(f"WRONG: {subject.name}: {what} {met[one][-1]} reports {one}, and {met[later][0]} {later}")
        count = sum(map(len, met.values()))
        if count == 0 and what != "start":
            self.wrong += 1
            print(f"WRONG: {subject.name}: no {what} was met, as if the library were not there")
        if count and what == "start" and WORKER not in met:
            self.wrong += 1
            print(f"WRONG: {subject.name}: no start that was refused is reported")
        self.refusals[what] += count
        parts = ", ".join(f"{len(numbers)} {meaning or 'WRONG'}" for meaning, numbers in met.items())
        print(f"{subject.name}: each {what}: {count} refused{': ' if parts else ''}{parts}", flush=True)

    def try_all(self, subject):
        """All sweeps over a subject."""
        self.subjects += 1
        ample = self.run(subject, {})
        if ample.said != subject.ample:
            self.print_wrong(subject, "nothing refused", ample)
            return
        self.sweep(subject, "request")
        self.sweep(subject, "request", behind=True)
        self.sweep(subject, "start")


def main():
    parser = argparse.ArgumentParser(description=__doc__, formatter_class=argparse.RawDescriptionHelpFormatter)
    parser.add_argument("--program")
    parser.add_argument("--calls")
    parser.add_argument("--every", action="store_true")
    parser.add_argument("--jobs", type=int, default=os.cpu_count())
    parser.add_argument("cases", nargs="*")
    said = parser.parse_args()
    with tempfile.TemporaryDirectory() as folder:
        text, library = f"{folder}/refused.c", f"{folder}/refused.so"
        pathlib.Path(text).write_text(LIBRARY)
        words = ["cc", "-O1", "-fPIC", "-shared", "-ftls-model=initial-exec", "-o", library, text, "-ldl", "-lpthread"]
        subprocess.run(words, check=True)
        harness = Harness(library, said.jobs)
        for subject in subjects(said):
            harness.try_all(subject)
    refused = ", ".join(f"{count} of a {what}" for what, count in harness.refusals.items())
    print(f"{harness.subjects} runs with ample memory, refusals: {refused}; {harness.wrong} wrong")
    return min(harness.wrong, 1)


if __name__ == "__main__":
    sys.exit(main())
