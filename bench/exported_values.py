#!/usr/bin/env python3
"""Prints the processor time of whole runs in which a rule exports two variables, over 500, 1,000 and 2,000 pairs of values.

Usage: bench/exported_values.py PROGRAM

In the first runs each pair is a choice at its own node, in the second all pairs are choices at one node, since dots stand between it
and the calls. A later rule inherits both variables and finds nothing. What is printed must be the file as it was.
"""
import os
import resource
import subprocess
import sys
import tempfile

LATER = "@s@\nexpression r.X, r.Y;\n@@\n q(X, Y);\n"
PATCHES = {
    "own nodes": "@r@\nexpression X, Y;\n@@\n f(X, Y);\n\n" + LATER,
    "one node": "@r exists@\nexpression X, Y;\n@@\n a();\n ... when any\n f(X, Y);\n\n" + LATER,
}


def spent(words):
    before = resource.getrusage(resource.RUSAGE_CHILDREN)
    printed = subprocess.run(words, capture_output=True, check=True).stdout
    after = resource.getrusage(resource.RUSAGE_CHILDREN)
    return after.ru_utime + after.ru_stime - before.ru_utime - before.ru_stime, printed


def main():
    program = os.path.abspath(sys.argv[1])
    with tempfile.TemporaryDirectory() as place:
        os.chdir(place)
        for name, patch in PATCHES.items():
            with open("p", "w") as to:
                to.write(patch)
            for count in (500, 1000, 2000):
                text = "void k(void)\n{\n\ta();\n" + "".join(f"\tf(x{i}, y{i});\n" for i in range(count)) + "}\n"
                with open("k.c", "w") as to:
                    to.write(text)
                took, printed = spent([program, "--sp-file", "p", "k.c"])
                if printed != text.encode():
                    sys.exit(f"{name}: the file changed")
                print(f"{name}, {count} pairs: {took:.2f} s")


main()
