#!/usr/bin/env python3
"""Times the start of `./spatch` beside that of the program that it runs.

Usage: bench/start.py [PROGRAM]

It runs a copy of the script over a copy of the code, in a temporary folder, with PROGRAM, or that of dist/, in dist/ there.
The program gets no words, so it prints its usage and ends. Timed are the program itself; the script where it has kept what
the code looks like, by its name and through a link; and the script where nothing can be kept, as in a checkout that can only
be read, so that all sums are taken each time. Printed: the least and the median of 200 runs, in milliseconds of processor
time and by the clock.
"""
import importlib.machinery
import os
import shutil
import statistics
import sys
import tempfile
import time

TOP = os.path.dirname(os.path.dirname(os.path.abspath(__file__)))
sys.dont_write_bytecode = True
DIST = importlib.machinery.SourceFileLoader("dist", f"{TOP}/.ci/dist").load_module()
RUNS = 200


def make_copy(top, program):
    for name in ("spatch", "crates.txt", "HANDLES"):
        shutil.copy(f"{TOP}/{name}", f"{top}/{name}")
    for crate in os.listdir(f"{TOP}/crates"):
        if os.path.isdir(f"{TOP}/crates/{crate}/src"):
            shutil.copytree(f"{TOP}/crates/{crate}/src", f"{top}/crates/{crate}/src")
    os.mkdir(f"{top}/dist")
    shutil.copyfile(program, f"{top}/{DIST.PROGRAM}")
    os.chmod(f"{top}/{DIST.PROGRAM}", 0o755)
    with open(f"{top}/{DIST.PROVED}", "w", encoding="utf-8") as file:
        file.write(DIST.proved_text(top, DIST.bytes_of(program), "a kit", "none", "none", "none"))
    os.mkdir(f"{top}/links")
    os.symlink("../spatch", f"{top}/links/rollgorge")


def times(word):
    """The least and the median of a run's processor time, and of its time by the clock, in milliseconds."""
    used, passed = [], []
    nothing = os.open(os.devnull, os.O_RDWR)
    for _ in range(RUNS):
        start = time.perf_counter()
        streams = [(os.POSIX_SPAWN_DUP2, nothing, number) for number in range(3)]
        process = os.posix_spawn(word, [word], os.environ, file_actions=streams)
        _, status, usage = os.wait4(process, 0)
        passed.append(1e3 * (time.perf_counter() - start))
        used.append(1e3 * (usage.ru_utime + usage.ru_stime))
        if os.waitstatus_to_exitcode(status) != 1:
            raise SystemExit(f"{word}: status {os.waitstatus_to_exitcode(status)}")
    os.close(nothing)
    return min(used), statistics.median(used), min(passed), statistics.median(passed)


def main():
    program = os.path.abspath(sys.argv[1]) if len(sys.argv) > 1 else f"{TOP}/{DIST.PROGRAM}"
    with tempfile.TemporaryDirectory() as top:
        make_copy(top, program)
        # What is as old as what is kept isn't trusted, so the code is to be a little older.
        time.sleep(1)
        times(f"{top}/spatch")
        rows = [("the program itself", f"{top}/{DIST.PROGRAM}"), ("./spatch", f"{top}/spatch"), ("./spatch through a link", f"{top}/links/rollgorge")]
        for name, word in rows:
            print("{}: {:.1f} ms of processor time (median {:.1f}), {:.1f} ms by the clock (median {:.1f})".format(name, *times(word)))
        # A file stands where the folder would be in which it is kept.
        shutil.rmtree(f"{top}/crates/spatch/out")
        with open(f"{top}/crates/spatch/out", "w", encoding="utf-8"):
            pass
        row = times(f"{top}/spatch")
        print("./spatch, nothing kept: {:.1f} ms of processor time (median {:.1f}), {:.1f} ms by the clock (median {:.1f})".format(*row))


if __name__ == "__main__":
    main()
