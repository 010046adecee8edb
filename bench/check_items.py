#!/usr/bin/env python3
"""Says how many items of C files have a tree, and shows a sample of those that have none.

    KEEP=PROGRAM bench/run items </dev/null        builds the program
    bench/check_items.py PROGRAM FOLDER..              reads every .c and .h file in the folders

Files of Debian are to be had by `apt-get install libc6-dev linux-libc-dev` and `apt-get download linux-source-6.1`.
Nothing of them is part of this repository. The last lines say how fast 16 MB of the .c files are read, one text, and how
much memory the program took at most, both from bytes to trees.
"""
import os
import random
import resource
import subprocess
import sys
import tempfile

SAMPLE = 30
MOST_BYTES = 16_000_000


def files_in(folders, ending):
    found = []
    for folder in folders:
        for place, _, names in os.walk(folder):
            found += [os.path.join(place, name) for name in names if name.endswith(ending)]
    return sorted(found)


def read(program, names):
    """The sums of a run over the files, and the items without a tree as (file, start, end)."""
    output = subprocess.run([program], input="".join(name + "\n" for name in names).encode(), capture_output=True, check=True)
    treeless = []
    sums = {}
    for line in output.stdout.decode().splitlines():
        words = line.split(" ", 3)
        if words[0] == "none":
            treeless.append((words[3], int(words[1]), int(words[2])))
        else:
            words = line.split()
            sums = dict(zip(words[::2], map(int, words[1::2])))
    return sums, treeless


def show(name, start, end):
    with open(name, "rb") as file:
        text = file.read()
    line = text.count(b"\n", 0, start) + 1
    print(f"--- {name}:{line}")
    print(text[start:end][:400].decode(errors="replace"))


def main():
    program, folders = sys.argv[1], sys.argv[2:]
    for ending in [".c", ".h"]:
        names = files_in(folders, ending)
        if not names:
            continue
        sums, treeless = read(program, names)
        share = 100 * sums["trees"] / max(1, sums["items"])
        print(f"{ending}: {sums['files']} files, {sums['items']} items, {sums['trees']} with a tree, {share:.2f} of 100")
        random.seed(1)
        for item in random.sample(treeless, min(SAMPLE, len(treeless))):
            show(*item)
    with tempfile.NamedTemporaryFile(suffix=".c") as whole:
        for name in files_in(folders, ".c"):
            if whole.tell() + os.path.getsize(name) <= MOST_BYTES:
                with open(name, "rb") as file:
                    whole.write(file.read())
        whole.flush()
        before = resource.getrusage(resource.RUSAGE_CHILDREN).ru_maxrss
        sums, _ = read(program, [whole.name])
        peak = resource.getrusage(resource.RUSAGE_CHILDREN).ru_maxrss
        speed = sums["bytes"] / max(1, sums["micros"])
        print(f"{sums['bytes']} bytes, {sums['tokens']} tokens: {speed:.1f} MB/s, peak {peak * 1024 / max(1, sums['bytes']):.1f} bytes a byte (before {before} KB)")


if __name__ == "__main__":
    main()
