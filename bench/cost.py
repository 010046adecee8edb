#!/usr/bin/env python3
"""Measures what a long command takes of the machine, as `bench/cost.py ./spatch --prove` or `bench/cost.py rt ci --anew`.

Printed at its end: processor minutes, minutes by the clock, the most memory that its processes held together at one time
(looked at once a second, what they share counted in parts), and by how much the used part of this folder's disk grew at
most. What else writes to that disk meanwhile counts too. The status is the command's.
"""
import os
import resource
import shutil
import subprocess
import sys
import time


def processes_below(top):
    """The processes that the command started, and those that these started."""
    parents = {}
    for name in filter(str.isdigit, os.listdir("/proc")):
        try:
            with open(f"/proc/{name}/stat", encoding="utf-8", errors="replace") as file:
                parents[int(name)] = int(file.read().rpartition(")")[2].split()[1])
        except OSError:
            pass
    found = [top]
    for one in found:
        found += [it for it, parent in parents.items() if parent == one]
    return found


def memory_of(process):
    """The memory that a process holds, in bytes: its own, and its part of what it shares."""
    try:
        with open(f"/proc/{process}/smaps_rollup", encoding="utf-8") as file:
            return sum(1024 * int(line.split()[1]) for line in file if line.startswith("Pss:"))
    except OSError:
        return 0


def main():
    if len(sys.argv) < 2:
        sys.exit(__doc__)
    start, before, memory, disk = time.monotonic(), shutil.disk_usage(".").used, 0, 0
    ran = subprocess.Popen(sys.argv[1:])
    while ran.poll() is None:
        memory = max(memory, sum(map(memory_of, processes_below(ran.pid))))
        disk = max(disk, shutil.disk_usage(".").used - before)
        time.sleep(1)
    usage = resource.getrusage(resource.RUSAGE_CHILDREN)
    print(f"{(usage.ru_utime + usage.ru_stime) / 60:.1f} processor minutes, {memory / 1e9:.1f} GB of memory and {disk / 1e9:.1f} GB of disk; "
          f"{(time.monotonic() - start) / 60:.1f} minutes by the clock, on {os.cpu_count()} processors")
    sys.exit(ran.returncode if ran.returncode >= 0 else 128 - ran.returncode)


if __name__ == "__main__":
    main()
