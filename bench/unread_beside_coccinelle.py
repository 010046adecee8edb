#!/usr/bin/env python3
"""What `--unread needed` saves over a tree of C files, beside Coccinelle with its filter of words.

Usage: bench/unread_beside_coccinelle.py PROGRAM SPATCH FOLDER [PATCH..]

PROGRAM is the program, SPATCH Coccinelle's spatch; FOLDER has C files, in folders of any depth. Without a PATCH those of
bench/unread are taken. Each is run three times by each tool, one job, without headers, and nothing is stored: PROGRAM with
`--check` and `--unread all`, then `needed`; SPATCH with `--dir`.

Printed for each patch: the median of user and system seconds, the peak of memory, and how many files would change.
"""
import glob
import os
import re
import statistics
import subprocess
import sys


def measured(words, folder):
    """The seconds, the megabytes and the output of one run."""
    ran = subprocess.run(["/usr/bin/time", "-f", "%U %S %M", *words], cwd=folder, capture_output=True)
    user, system, peak = ran.stderr.decode(errors="replace").strip().split("\n")[-1].split()
    return float(user) + float(system), int(peak) / 1024, ran.stdout


def main(program, spatch, folder, patches):
    files = sorted(os.path.relpath(os.path.join(at, it), folder) for at, _, them in os.walk(folder) for it in them if it.endswith(".c"))
    print(f"{len(files)} files, {sum(os.path.getsize(os.path.join(folder, it)) for it in files) / 1e6:.0f} MB")
    for patch in map(os.path.abspath, patches):
        tools = {f"--unread {value}": [program, "--sp-file", patch, "--unread", value, "--check", *files] for value in ("all", "needed")}
        tools["Coccinelle"] = [spatch, "--sp-file", patch, "--no-includes", "--very-quiet", "--dir", "."]
        for name, words in tools.items():
            runs = [measured(words, folder) for _ in range(3)]
            out = runs[0][2]
            changed = len(re.findall(rb"^--- ", out, re.M)) if name == "Coccinelle" else out.count(b"\n")
            seconds, peak = statistics.median(it[0] for it in runs), max(it[1] for it in runs)
            print(f"{os.path.basename(patch)}: {name}: {seconds:.2f} s, {peak:.0f} MB, {changed} files")


if __name__ == "__main__":
    if len(sys.argv) < 4:
        sys.exit(__doc__)
    here = os.path.dirname(os.path.abspath(__file__))
    main(os.path.abspath(sys.argv[1]), sys.argv[2], sys.argv[3], sys.argv[4:] or sorted(glob.glob(f"{here}/unread/*.cocci")))
