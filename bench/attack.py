#!/usr/bin/env python3
"""Attacks stores in place: kills runs, changes files under them, leads links elsewhere, and looks for bytes that are lost.

Usage: bench/attack.py PROGRAM [--tries N] [--seed N] [--only WORD]

Each row is tried N times (50), with times and victims from the seed (1). cc builds the library that holds windows open.
Printed is a line for each row, with what was found; the status is 1 where a byte of others was lost, or a file is neither
old nor new but one after a kill of files with second names.
"""
import argparse
import os
import random
import resource
import shutil
import signal
import stat
import struct
import subprocess
import sys
import tempfile
import threading
import time

HERE = os.path.dirname(os.path.abspath(__file__))
NAMES = ("alpha", "beta", "gamma", "delta")
FILLER = "".join(f"\tkeep_{i}(x, y, {i});\n" for i in range(30))


def patch(name):
    return f"@@\n@@\n- {name}();\n+ new_{name}();\n"


def text(number):
    return "void f(void)\n{\n" + "".join(f"\t{name}();\n" for name in NAMES) + FILLER + f"\tis({number});\n}}\n"


def edited(old, *names):
    for name in names:
        old = old.replace(f"\t{name}();", f"\tnew_{name}();")
    return old


def read(path):
    with open(path, "rb") as file:
        return file.read().decode()


def write(path, what):
    with open(path, "w") as file:
        file.write(what)


class Place:
    """A folder with a patch for each name and with files, which may have second names in another folder."""

    def __init__(self, top, files, second=False, make=text):
        self.top = tempfile.mkdtemp(dir=top)
        for name in NAMES:
            write(os.path.join(self.top, name), patch(name))
        os.mkdir(os.path.join(self.top, "d"))
        os.mkdir(os.path.join(self.top, "second"))
        self.names = [f"d/{i}.c" for i in range(files)]
        self.old = {}
        for i, name in enumerate(self.names):
            self.old[name] = make(i)
            write(self.path(name), self.old[name])
            if second:
                os.link(self.path(name), self.path(f"second/{i}.c"))

    def path(self, name):
        return os.path.join(self.top, name)

    def start(self, names=None, patch_name="alpha", limit=None, slow=None):
        words = [PROGRAM, "--sp-file", patch_name, "--in-place", *(names or self.names)]
        extra = {"LD_PRELOAD": LIBRARY, "SLOW": slow[0], "SLOW_US": str(slow[1])} if slow else {}
        held = (lambda: resource.setrlimit(resource.RLIMIT_FSIZE, (limit, limit))) if limit is not None else None
        return subprocess.Popen(words, cwd=self.top, stdin=subprocess.DEVNULL, stdout=subprocess.PIPE, stderr=subprocess.PIPE,
                                env={**os.environ, **extra}, preexec_fn=held)

    def left_over(self):
        return [name for name in os.listdir(self.path("d")) if name.startswith(".")]

    def neither(self, names=("alpha",)):
        return [name for name in self.names if read(self.path(name)) not in (self.old[name], edited(self.old[name], *names))]

    def gone(self):
        shutil.rmtree(self.top)


def whole_time(top, files, second=False):
    place = Place(top, files, second)
    before = time.time()
    place.start().communicate()
    place.gone()
    return time.time() - before


def killed(top, rng, tries, second):
    """A run over 300 files is killed at a random time."""
    took = whole_time(top, 300, second)
    found = {"neither": 0, "left over": 0}
    worst = 0
    for i in range(tries):
        place = Place(top, 300, second)
        run = place.start()
        time.sleep(rng.random() * took)
        run.send_signal((signal.SIGINT, signal.SIGTERM, signal.SIGHUP, signal.SIGKILL)[i % 4])
        run.communicate()
        bad = len(place.neither())
        worst = max(worst, bad)
        found["neither"] += bad > 0
        found["left over"] += bool(place.left_over())
        place.gone()
    found["most files"] = worst
    return found, worst > (1 if second else 0) or not second and found["neither"]


def limited(top, rng, tries, second):
    """No file may grow to what the new text has."""
    bad = unsaid = 0
    for i in range(tries):
        place = Place(top, 3, second)
        run = place.start(limit=rng.randrange(1, len(text(0)) + 3))
        _, err = run.communicate()
        bad += any(read(place.path(name)) != place.old[name] for name in place.names)
        unsaid += run.returncode != 6 or err != b"spatch: d/0.c: cannot write\n" or bool(place.left_over())
        place.gone()
    return {"not the old bytes": bad, "another end": unsaid}, bad or unsaid


def meddling(place, rng, stop, deed, done):
    while not stop.is_set():
        time.sleep(rng.random() * 0.004)
        name = rng.choice(place.names)
        if name not in done:
            done[name] = deed(place, name)


def changed(top, rng, tries, how, slow):
    """Another program writes files while the run loads and stores them."""
    lost = left = refused = 0

    def deed(place, name):
        mine = "void g(void)\n{\n\talpha();\n\tmine(%d);\n}\n" % rng.randrange(10**6)
        if how == "over":
            write(place.path(name), mine)
        else:
            write(place.path("mine"), mine)
            os.rename(place.path("mine"), place.path(name))
        return mine

    for _ in range(tries):
        place, stop, done = Place(top, 60), threading.Event(), {}
        run = place.start(slow=slow)
        other = threading.Thread(target=meddling, args=(place, rng, stop, deed, done))
        other.start()
        run.communicate()
        stop.set()
        other.join()
        refused += run.returncode == 6
        for name in place.names:
            now = read(place.path(name))
            wanted = done.get(name, place.old[name])
            lost += now not in (wanted, edited(wanted, "alpha"))
        left += bool(place.left_over())
        place.gone()
    return {"lost": lost, "left over": left, "runs refused": refused}, lost or left


def four_at_once(top, rng, tries, second):
    """Four runs over the same files, each with its own edit. An edit of which a run says that it is done must be there."""
    lost = bad = 0
    for _ in range(tries):
        place = Place(top, 40, second)
        runs = []
        for name in NAMES:
            names = place.names[:]
            rng.shuffle(names)
            runs.append((name, names, place.start(names, name)))
        for name, names, run in runs:
            _, err = run.communicate()
            failed = [i for i, one in enumerate(names) if f"spatch: {one}: cannot write" in err.decode()]
            for one in names[: failed[0] if failed else len(names)]:
                lost += run.returncode not in (0, 6) or f"new_{name}" not in read(place.path(one))
        for one in place.names:
            bad += read(place.path(one)).replace("new_", "") != place.old[one] or bool(place.left_over())
        place.gone()
    return {"edits lost": lost, "neither": bad}, lost or bad


def led_elsewhere(top, rng, tries, how):
    """A link is led to another file, or a file becomes a link or goes, between load and store."""
    lost = made = 0
    victim = text("victim").replace("alpha", "gone")

    def deed(place, name):
        if how != "removed":
            os.symlink("../victim", place.path("link"))
            os.rename(place.path("link"), place.path(name))
        else:
            os.remove(place.path(name))
        return True

    for _ in range(tries):
        place, stop, done = Place(top, 60), threading.Event(), {}
        write(place.path("victim"), victim)
        if how == "led":
            os.mkdir(place.path("real"))
            for name in place.names:
                os.rename(place.path(name), place.path(name.replace("d/", "real/")))
                os.symlink(f"../{name.replace('d/', 'real/')}", place.path(name))
        run = place.start(slow=("lstat fsync", 3000))
        other = threading.Thread(target=meddling, args=(place, rng, stop, deed, done))
        other.start()
        run.communicate()
        stop.set()
        other.join()
        lost += read(place.path("victim")) != victim
        made += sum(how == "removed" and os.path.exists(place.path(name)) for name in done)
        place.gone()
    return {"others overwritten": lost, "made again": made}, lost or made


def given_away(top, rng, tries):
    """The name of the new file is led to a file of root before it is given to the owner."""
    if os.getuid() != 0:
        return {"not tried": "not root"}, False
    given = over = 0
    for _ in range(tries):
        place = Place(top, 3)
        for name in place.names:
            os.chown(place.path(name), 12345, 12345)
        write(place.path("roots"), "of root\n")
        run = place.start(slow=("chown chmod fsync", 3000))
        while run.poll() is None:
            time.sleep(rng.random() * 0.003)
            try:
                os.link(place.path("roots"), place.path("d/swap"))
                os.rename(place.path("d/swap"), place.path("d/.spatch-new-0"))
            except OSError:
                pass
        run.communicate()
        given += os.stat(place.path("roots")).st_uid != 0
        over += any(read(place.path(name)) == "of root\n" for name in place.names)
        place.gone()
    return {"given away": given, "renamed over": over}, given or over


def no_files(top, rng, tries):
    """FIFOs, devices, sockets and folders as FILE, between two files. A folder ends the run; no other is opened."""
    wrong = 0
    for i in range(tries):
        place = Place(top, 2)
        name = "d/%d" % rng.randrange(10**6)
        kind = i % 4
        if kind == 0:
            os.mkfifo(place.path(name))
        elif kind == 1:
            os.mkdir(place.path(name))
        elif kind == 2:
            os.mknod(place.path(name), 0o644 | stat.S_IFSOCK)
        else:
            name = rng.choice(("/dev/null", "/dev/zero", "/dev/tty", "/dev/ptmx"))
        why, status, goes_on = ("cannot read", 5, False) if kind == 1 else ("refused: no regular file", 4, True)
        run = place.start([place.names[0], name, place.names[1]])
        try:
            _, err = run.communicate(timeout=5)
            stored = [read(place.path(one)) == edited(place.old[one], "alpha") for one in place.names]
            wrong += run.returncode != status or err.decode() != f"spatch: {name}: {why}\n" or stored != [True, goes_on]
        except subprocess.TimeoutExpired:
            run.kill()
            run.communicate()
            wrong += 1
        place.gone()
    return {"another answer": wrong}, wrong


def shown(name):
    """A name as a line must show it."""
    marks = {"\n": "\\n", "\t": "\\t", "\\": "\\\\"}
    return "".join(marks.get(one) or (f"\\x{ord(one):02x}" if ord(one) < 32 or ord(one) == 127 else one) for one in name)


def forging(top, rng, tries):
    """Names with newlines, escape sequences and other control bytes: of a file that isn't read, one that is absent, and in a report."""
    wrong = 0
    parts = [chr(code) for code in (*range(1, 32), 127)] + ["\nspatch: ", ": cannot read", "\x1b[2K", "\\", "\\n", "\u00fc", "k"] * 5
    for _ in range(tries):
        place = Place(top, 1)
        present, absent = ("d/" + kind + "".join(rng.choices(parts, k=rng.randrange(1, 12))) for kind in "pa")
        write(place.path(present), "int x\n")
        run = place.start([present, absent])
        _, err = run.communicate()
        lines = f"spatch: {shown(present)}: reading 0: item 0 not read: no tree\n  {shown(present)}:1:1: no tree\n"
        lines += f"spatch: {shown(absent)}: cannot read\n"
        report = subprocess.run([PROGRAM, "--sp-file", "alpha", "--witnesses", present], cwd=place.top, capture_output=True)
        wrong += run.returncode != 5 or err != lines.encode() or report.stdout != f"file {shown(present)}\nrule 0 -\n".encode()
        place.gone()
    return {"another answer": wrong}, wrong


def long_paths(top, rng, tries):
    """Paths about as long as they may be."""
    wrong = 0
    for _ in range(tries):
        place = Place(top, 0)
        length = rng.randrange(4060, 4096)
        here = os.getcwd()
        os.chdir(place.top)
        parts = []
        while length - len("/".join(parts)) > 210:
            parts.append("p" * 200)
            os.mkdir(parts[-1])
            os.chdir(parts[-1])
        rest = length - len("/".join(parts)) - 1
        write("k" * rest, text(0))
        name = "/".join([*parts, "k" * rest])
        run = place.start([name])
        run.communicate()
        wrong += len(name) != length or run.returncode != 0 or read("k" * rest) != edited(text(0), "alpha") or len(os.listdir(".")) != 1
        os.chdir(here)
        place.gone()
    return {"not stored": wrong}, wrong


def append_only(top, rng, tries):
    """A folder in which names may be made and none taken away."""
    left = wrong = 0
    for _ in range(tries):
        place = Place(top, rng.randrange(1, 5))
        if subprocess.run(["chattr", "+a", place.path("d")], stderr=subprocess.DEVNULL).returncode:
            place.gone()
            return {"not tried": "no chattr +a here"}, False
        run = place.start()
        run.communicate()
        subprocess.run(["chattr", "-a", place.path("d")], check=True)
        left += bool(place.left_over())
        wrong += run.returncode != 0 or any(read(place.path(name)) != edited(place.old[name], "alpha") for name in place.names)
        place.gone()
    return {"left over": left, "not stored": wrong}, left or wrong


def access_list(named):
    """An access list as the kernel takes it, in which user 12345 has these rights."""
    entries = ((1, 7, 2**32 - 1), (2, named, 12345), (4, 5, 2**32 - 1), (16, 7, 2**32 - 1), (32, 5, 2**32 - 1))
    return struct.pack("<I", 2) + b"".join(struct.pack("<HHI", *entry) for entry in entries)


def access_lists(top, rng, tries):
    """A default access list on the folder."""
    gained = 0
    for _ in range(tries):
        place = Place(top, 2)
        for name in place.names:
            os.chmod(place.path(name), rng.choice((0o600, 0o640, 0o644)))
        try:
            os.setxattr(place.path("d"), "system.posix_acl_default", access_list(6))
        except OSError:
            place.gone()
            return {"not tried": "no access lists here"}, False
        place.start().communicate()
        gained += any("system.posix_acl_access" in os.listxattr(place.path(name)) for name in place.names)
        place.gone()
    return {"lists inherited": gained}, False


def rows():
    yield "killed, plain files", lambda *a: killed(*a, False)
    yield "killed, second names", lambda *a: killed(*a, True)
    yield "ulimit -f, plain files", lambda *a: limited(*a, False)
    yield "ulimit -f, second names", lambda *a: limited(*a, True)
    for how in ("over", "replaced"):
        yield f"another writes, {how}", lambda *a, how=how: changed(*a, how, None)
        yield f"another writes, {how}, windows held", lambda *a, how=how: changed(*a, how, ("lstat fsync chmod chown", 3000))
    yield "four runs at once", lambda *a: four_at_once(*a, False)
    yield "four runs at once, second names", lambda *a: four_at_once(*a, True)
    for how in ("led", "linked", "removed"):
        yield f"a file is {how}", lambda *a, how=how: led_elsewhere(*a, how)
    yield "root's file under the new name", given_away
    yield "no files", no_files
    yield "names that make lines", forging
    yield "long paths", long_paths
    yield "append-only folder", append_only
    yield "access lists", access_lists


def main():
    words = argparse.ArgumentParser()
    words.add_argument("program")
    words.add_argument("--tries", type=int, default=50)
    words.add_argument("--seed", type=int, default=1)
    words.add_argument("--only", default="")
    words = words.parse_args()
    global PROGRAM, LIBRARY
    PROGRAM = os.path.abspath(words.program)
    wrong = False
    with tempfile.TemporaryDirectory() as top:
        LIBRARY = os.path.join(top, "slow.so")
        subprocess.run(["cc", "-shared", "-fPIC", "-o", LIBRARY, os.path.join(HERE, "attack_slow.c"), "-ldl"], check=True)
        for name, row in rows():
            if words.only in name:
                found, bad = row(top, random.Random(f"{words.seed} {name}"), words.tries)
                print(f"{name}: {words.tries} tries:", ", ".join(f"{key} {value}" for key, value in found.items()), "WRONG" if bad else "", flush=True)
                wrong = wrong or bool(bad)
    sys.exit(wrong)


if __name__ == "__main__":
    main()
