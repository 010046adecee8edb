#!/usr/bin/env python3
"""Times the whole program on a file of 16 MB of functions made of call statements, of which one call is removed.

Usage: bench/whole_run.py [PROGRAM]

PROGRAM is the program as LLVM builds it; without it the one in dist/ is taken.
The file, the patch and what is printed are made in a temporary folder. Beside the program, `sed` (which deletes the
call) and `cat` run on the same file. For each the best of five runs counts.

Printed: MB of text a second of processor time (1 MB is 1,000,000 bytes), peak memory, and for the program its peak beside
the text, a piece. Pieces are counted here, by a regular expression and not by the program. What the program prints is
compared with what `sed` leaves.
"""
import os
import random
import re
import subprocess
import sys
import tempfile

SIZE = 16_000_000
NAMES = ["lock", "unlock", "get_page", "put_page", "of_node_put", "kfree", "mutex_lock", "dev_set_name", "schedule"]
ARGUMENTS = ["dev", "page", "lock", "np", "bus", "priv", "data", "flags"]
REMOVED = "of_node_put(np);"


def functions(size):
    """A text of at least `size` bytes, less one function, made of functions of call statements."""
    choose = random.Random(1)
    parts, length, count = [], 0, 0
    while length < size - 2_000:
        lines = [f"void function_{count}(void)\n{{\n"]
        for _ in range(choose.randrange(4, 20)):
            if choose.randrange(8) == 0:
                call = REMOVED
            else:
                arguments = ", ".join(choose.choices(ARGUMENTS, k=choose.randrange(0, 4)))
                call = f"{choose.choice(NAMES)}({arguments});"
            lines.append(f"\t{call}\n")
        lines.append("}\n\n")
        text = "".join(lines)
        parts.append(text)
        length += len(text)
        count += 1
    return "".join(parts)


# Run in a process of its own, so that what this script holds doesn't count as the command's peak.
MEASURE = """
import os, subprocess, sys
with open("printed", "wb") as printed:
    process = subprocess.Popen(sys.argv[1:], stdout=printed)
    _, status, usage = os.wait4(process.pid, 0)
print(os.waitstatus_to_exitcode(status), usage.ru_utime + usage.ru_stime, usage.ru_maxrss * 1024)
"""


def run(command, folder):
    """The best processor time of five runs, in seconds, and the greatest peak memory, in bytes."""
    best, peak = None, 0
    for _ in range(5):
        measured = subprocess.run(
            [sys.executable, "-c", MEASURE, *command], cwd=folder, capture_output=True, text=True, check=True
        )
        status, seconds, bytes_at_peak = measured.stdout.split()
        if status != "0":
            sys.exit(f"{command[0]} ended with status {status}")
        best = float(seconds) if best is None else min(best, float(seconds))
        peak = max(peak, int(bytes_at_peak))
    return best, peak


def main():
    top = os.path.dirname(os.path.dirname(os.path.abspath(__file__)))
    program = sys.argv[1] if len(sys.argv) > 1 else os.path.join(top, "dist", "spatch-x86_64-linux")
    if not os.path.exists(program):
        sys.exit(f"there is no {program}")
    text = functions(SIZE)
    pieces = len(re.findall(r"\s+|\w+|.", text))
    with tempfile.TemporaryDirectory() as folder:
        with open(os.path.join(folder, "big.c"), "w") as file:
            file.write(text)
        with open(os.path.join(folder, "patch.cocci"), "w") as file:
            file.write(f"@@\n@@\n- {REMOVED}\n")
        print(f"file: {len(text)} bytes, {pieces} pieces")
        rows = [
            ("spatch", [os.path.abspath(program), "--sp-file", "patch.cocci", "big.c"]),
            ("sed", ["sed", f"s/{REMOVED}//", "big.c"]),
            ("cat", ["cat", "big.c"]),
        ]
        printed = {}
        for name, command in rows:
            seconds, peak = run(command, folder)
            with open(os.path.join(folder, "printed")) as file:
                printed[name] = file.read()
            line = f"{name}: {len(text) / 1e6 / seconds:.0f} MB/s, peak {peak / 1e6:.0f} MB"
            if name == "spatch":
                line += f", {(peak - len(text)) / pieces:.1f} bytes a piece beside the text"
            print(line)
        if printed["spatch"] != printed["sed"]:
            sys.exit("spatch and sed printed different texts")
        print("spatch and sed printed the same text")


if __name__ == "__main__":
    main()
