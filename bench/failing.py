#!/usr/bin/env python3
"""Runs the program with each of its allocations refused in turn, and with each call on files and streams failing in turn.

Usage: bench/failing.py [--quiet] PROGRAM TOPIC/NAME[@JOBS]..

TOPIC/NAME is a folder of runs/, which is run with so many jobs where that is said. A run whose allocation was refused must answer 7, or its own answer; one whose call failed 5, 6 or
its own status. What it printed must be the beginning of what the run prints (after 7), each file must hold its old bytes or
its new ones, and after a refused allocation no other file may be there. The C compiler builds the
library that makes calls fail. Printed are, for each run, how many calls there were and which statuses came, and with --quiet
only what was wrong; the status is 1 where something was.
"""
import collections
import importlib.machinery
import importlib.util
import os
import subprocess
import sys
import tempfile

TOP = os.path.dirname(os.path.dirname(os.path.abspath(__file__)))


def module_of(path):
    """A script without an ending, as a module."""
    loader = importlib.machinery.SourceFileLoader(os.path.basename(path), path)
    module = importlib.util.module_from_spec(importlib.util.spec_from_loader(loader.name, loader))
    loader.exec_module(module)
    return module


sys.dont_write_bytecode = True
RUNS = module_of(os.path.join(TOP, ".ci/runs"))


class Run(RUNS.Run):
    """A run, of which one call may fail."""

    def __init__(self, said):
        name, _, jobs = said.partition("@")
        super().__init__(name)
        if jobs:
            self.words = ["--jobs", jobs, *self.words]

    @property
    def wanted(self):
        return self.status, self.out, self.err

    def once(self, program, library, told, **fails):
        """The status, the output, the error output, and the files afterwards."""
        with tempfile.TemporaryDirectory() as place:
            self.write_files(place)
            words = {**os.environ, "LD_PRELOAD": library, "FAIL_TOLD": told, **fails}
            ran = subprocess.run([program, *self.words], cwd=place, stdin=subprocess.DEVNULL, capture_output=True, env=words, timeout=60)
            return (ran.returncode, ran.stdout, ran.stderr), RUNS.files_of(place)

    def is_right(self, answer, files, is_memory):
        status, out, err = answer
        if any(files.get(name) not in (self.files[name], self.after[name]) for name in self.files):
            return False
        if is_memory and status == 7:
            return self.wanted[1].startswith(out) and self.wanted[2].startswith(err) and files.keys() == self.files.keys()
        if is_memory:
            return answer == self.wanted and files == self.after
        return status in (self.wanted[0], 5, 6)


def fail_each(run, program, library, told):
    """Each answer that is wrong; and, at the end, how many calls there were and which statuses came."""
    if run.once(program, library, told) != (run.wanted, run.after):
        yield f"{run.name}: another answer without a failing call", ""
        return
    counts = list(map(int, RUNS.read(told).split()))
    if len(counts) != 2 or 0 in counts:
        yield f"{run.name}: its calls were not counted", ""
    for kind, count in zip(("FAIL_ALLOC", "FAIL_IO"), counts):
        statuses = collections.Counter()
        for number in range(count):
            answer, files = run.once(program, library, told, **{kind: str(number)})
            statuses[answer[0]] += 1
            if not run.is_right(answer, files, kind == "FAIL_ALLOC"):
                yield f"{run.name}: {kind}={number}: {answer}", ""
        yield "", f"{run.name}: {kind}: {count} calls, {', '.join(f'{n} answered {it}' for it, n in sorted(statuses.items()))}"


def main(words):
    quiet = words[:1] == ["--quiet"]
    words = words[quiet:]
    if len(words) < 2:
        sys.exit(__doc__)
    wrong = 0
    with tempfile.TemporaryDirectory() as folder:
        library, told = os.path.join(folder, "failing.so"), os.path.join(folder, "told")
        subprocess.run(["cc", "-O1", "-shared", "-fPIC", "-o", library, os.path.join(TOP, "bench/failing.c"), "-ldl"], check=True)
        for run in map(Run, words[1:]):
            for fault, figures in fail_each(run, os.path.abspath(words[0]), library, told):
                wrong += fault != ""
                if fault or not quiet:
                    print(fault or figures)
    sys.exit(1 if wrong else 0)


if __name__ == "__main__":
    main(sys.argv[1:])
