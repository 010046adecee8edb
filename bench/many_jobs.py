#!/usr/bin/env python3
"""Prints how long whole runs take with 1, 2 and 4 jobs, by the clock: the median, the best, and how often the median goes into that of
one job. The numbers of jobs take turns, round by round, so that other work on the machine meets all of them.

Usage: bench/many_jobs.py PROGRAM [ROUNDS]

ROUNDS is 9 where it is left out. The program runs on five files, each answer being that of one job:

locks   128 functions, in each of which 20 pairs of locks are taken, used and let go, one within the other, 163 KB, under a rule that looks
        for a lock that is taken again while another one is held, which it finds nowhere. Nearly all of the time is matching, of pairs of
        values: this is the file that tells how well jobs share it
rules   96 functions, in each of which 100 locks are taken, used and let go one after another, 335 KB, under twelve rules that each look for
        two calls with the same lock in an order in which they don't come. Choosing items for each rule is done in one thread
pairs   64 functions of 2,000 calls each, 1.3 MB, under a rule of two calls between dots, which edits nothing. In one thread are reading,
        and the walk over the 256,000 values that the jobs found, which is looked through for edits, together a fifth of the work
edits   200 such functions, 4.2 MB, under a rule that replaces each call, where reading, edits and printing in one thread take about half
small   one function of two calls
"""
import os
import statistics
import subprocess
import sys
import tempfile
import time

JOBS = (1, 2, 4)

LOCKS = ("@r exists@\nexpression E, F;\n@@\n* lock(E);\n  ... when != unlock(E)\n* lock(F);\n  ... when != unlock(F)\n* lock(E);\n")

ORDERS = (("lock", "lock"), ("g", "g"), ("unlock", "unlock"), ("g", "lock"), ("unlock", "lock"), ("unlock", "g"))

RULES = "".join(f"@r_{a}_{b}_{c} exists@\nexpression E;\n@@\n* {a}(E);\n  ... when != {c}(E)\n* {b}(E);\n\n"
                for a, b in ORDERS for c in ("lock", "g", "unlock") if c != b)

PAIRS = "@r exists@\nexpression E, F;\n@@\n start();\n ... when any\n g(E);\n ... when any\n g(F);\n ... when any\n stop();\n"

EDITS = "@r@\nexpression E;\n@@\n start();\n ... when any\n-g(E);\n+h(E);\n ... when any\n stop();\n"


def functions(count, body):
    return "".join(f"void f{i}(void)\n{{\n{body}}}\n" for i in range(count))


def locking(locks):
    return "".join(f"\tlock(x{k});\n\tg(x{k});\n\tunlock(x{k});\n" for k in range(locks))


def locking_pairs(pairs):
    return "".join(f"\tlock(x{k});\n\tlock(y{k});\n\tg(x{k}, y{k});\n\tunlock(y{k});\n\tunlock(x{k});\n" for k in range(pairs))


def calling(calls):
    return "\tstart();\n" + "".join(f"\tg(x{k});\n" for k in range(calls)) + "\tstop();\n"


FILES = (("locks", LOCKS, functions(128, locking_pairs(20))), ("rules", RULES, functions(96, locking(100))),
         ("pairs", PAIRS, functions(64, calling(2000))),
         ("edits", EDITS, functions(200, calling(2000))), ("small", EDITS, functions(1, calling(2))))


def timed(program, jobs):
    start = time.monotonic()
    ran = subprocess.run([program, "--jobs", str(jobs), "--sp-file", "p", "k.c"], capture_output=True, check=True)
    return time.monotonic() - start, ran.stdout


def measured(program, name, rounds):
    """For each number of jobs the seconds of its runs."""
    _, first = timed(program, 1)
    took = {jobs: [] for jobs in JOBS}
    for _ in range(rounds):
        for jobs in JOBS:
            seconds, out = timed(program, jobs)
            if out != first:
                sys.exit(f"{name}: {jobs} jobs print something else than one")
            took[jobs].append(seconds)
    return took


def main():
    program = os.path.abspath(sys.argv[1])
    rounds = int(sys.argv[2]) if len(sys.argv) > 2 else 9
    print(f"{rounds} rounds on {os.cpu_count()} cores, which had the work of {os.getloadavg()[0]:.1f} before")
    with tempfile.TemporaryDirectory() as place:
        os.chdir(place)
        for name, patch, text in FILES:
            with open("p", "w") as to:
                to.write(patch)
            with open("k.c", "w") as to:
                to.write(text)
            took = measured(program, name, rounds)
            one = statistics.median(took[1])
            for jobs in JOBS:
                median = statistics.median(took[jobs])
                print(f"{name}, {jobs} jobs: median {median:.3f} s, best {min(took[jobs]):.3f} s, {one / median:.2f} times as fast as one")


main()
