#!/usr/bin/env python3
"""What edits look like under `--tidy`, and without it, over a tree of C files, beside those of Coccinelle.

Usage: bench/tidy_beside_coccinelle.py PROGRAM SPATCH FOLDER [PATCH..]

PROGRAM is the program, SPATCH Coccinelle's spatch, or `-` for none; FOLDER has C files, in folders of any depth. Without a
PATCH those of bench/tidy are taken. Each is run over a copy of the files that have its words: by PROGRAM with and without `--tidy`, and by
SPATCH, without headers. A place is a row of lines that differ from those of the file.

Printed for each patch and way: how many files change, and of the places how many there are, and at how many of them
- an added line is indented by other blanks than tabs and then up to seven spaces, though the removed ones, or if there is none the
  one above, aren't, or by other blanks than the first removed one, if as many lines come as go (`crooked`);
- an added line has blanks alone (`blank`), has two blanks in a row behind its text's beginning that no removed line has (`two`), or
  ends in one, though no removed line does (`end`);
and for PROGRAM how many files have the bytes that SPATCH gives them, and how many do but for blanks and braces; and how many it
refuses. With the variable NAMES set, the files are named that have such a place, or other bytes under `--tidy`.
"""
import glob
import os
import re
import shutil
import subprocess
import sys
import tempfile

KINDS = ("crooked", "blank", "two", "end")


def words_of(patch):
    """The names that the patch's code without `+` has and its declarations lack."""
    lines = open(patch, encoding="utf-8").read().split("\n")
    heads = [at for at, line in enumerate(lines) if line.startswith("@")]
    declared = set(re.findall(r"\w+", " ".join(lines[heads[0] + 1:heads[1]])))
    code = " ".join(line for line in lines[heads[1] + 1:] if not line.startswith("+"))
    return [name for name in re.findall(r"[A-Za-z_]\w*", code) if name not in declared]


def indent(line):
    return re.match(r"[ \t]*", line)[0]


def is_crooked(old, new, above):
    """Whether a place's first lines are indented in different ways, or an added line in a way in which no line there is."""
    texts = [line for line in new if line.strip()]
    before = [line for line in old if line.strip()]
    odd = re.compile(r"\t* {8,}|\t* +\t")
    if any(odd.match(indent(line)) for line in texts) and not any(odd.match(indent(line)) for line in before or [above]):
        return True
    return bool(texts and before and len(texts) == len(before) and indent(texts[0]) != indent(before[0]))


def kinds_at(old, new, above):
    """Which of the kinds a place is of."""
    found = set()
    if is_crooked(old, new, above):
        found.add("crooked")
    if any(line.strip(" \t\n\r") == "" and line.strip("\n\r") != "" for line in new):
        found.add("blank")
    if any("  " in line.strip() for line in new) and not any("  " in line.strip() for line in old):
        found.add("two")
    if any(re.search(r"\S[ \t]+$", line) for line in new) and not any(re.search(r"[ \t]+$", line) for line in old):
        found.add("end")
    return found


def places(old, new):
    """The places at which two texts differ: the lines that go, those that come, and the old one above."""
    with tempfile.NamedTemporaryFile() as one, tempfile.NamedTemporaryFile() as other:
        for file, text in ((one, old), (other, new)):
            file.write(text.encode("latin-1"))
            file.flush()
        lines = subprocess.run(["diff", one.name, other.name], capture_output=True).stdout.decode("latin-1").split("\n")
    texts = old.split("\n")
    heads = [at for at, line in enumerate(lines) if re.match(r"\d", line)] + [len(lines)]
    for at, to in zip(heads, heads[1:]):
        first = int(re.match(r"\d+", lines[at])[0])
        above = first - 1 if "a" in lines[at] else first - 2
        goes, comes = ([line[2:] for line in lines[at:to] if line.startswith(sign)] for sign in ("< ", "> "))
        yield goes, comes, texts[above] if above >= 0 else ""


def read(path):
    with open(path, encoding="latin-1", newline="") as file:
        return file.read()


def bare(text):
    return re.sub(r"[\s{}]+", "", text)


def copied(folder, files, place):
    for name in files:
        os.makedirs(os.path.dirname(os.path.join(place, name)), exist_ok=True)
        shutil.copyfile(os.path.join(folder, name), os.path.join(place, name))


def edited(folder, files, words, each):
    """The texts of the files after a run over a copy of them, and how many lines say that one is refused."""
    with tempfile.TemporaryDirectory() as place:
        copied(folder, files, place)
        refused = 0
        for at in range(0, len(files), each):
            ran = subprocess.run([*words, *files[at:at + each]], cwd=place, capture_output=True)
            refused += ran.stderr.count(b": refused: ")
        return {name: read(os.path.join(place, name)) for name in files}, refused


def main(program, spatch, folder, patches):
    found = sorted(os.path.relpath(os.path.join(at, it), folder) for at, _, them in os.walk(folder) for it in them if it.endswith(".c"))
    print(f"{len(found)} files, {sum(os.path.getsize(os.path.join(folder, it)) for it in found) / 1e6:.0f} MB")
    texts = {name: read(os.path.join(folder, name)) for name in found}
    for patch in map(os.path.abspath, patches):
        words = words_of(patch)
        files = [name for name in found if all(word in texts[name] for word in words)]
        theirs = None
        if spatch != "-":
            theirs, _ = edited(folder, files, [spatch, "--sp-file", patch, "--no-includes", "--very-quiet", "--in-place"], 1)
        ways = {"plain": [program, "--sp-file", patch, "--in-place", "--unread", "none", "--"],
                "--tidy": [program, "--sp-file", patch, "--tidy", "--in-place", "--unread", "none", "--"]}
        results = {way: edited(folder, files, line, 200) for way, line in ways.items()}
        if theirs:
            results["Coccinelle"] = theirs, 0
        for way, (ours, refused) in results.items():
            counts, all_places = dict.fromkeys(KINDS, 0), 0
            changed = [name for name in files if ours[name] != texts[name]]
            for name in changed:
                for old, new, above in places(texts[name], ours[name]):
                    all_places += 1
                    for kind in kinds_at(old, new, above):
                        counts[kind] += 1
                        if way == "--tidy" and os.environ.get("NAMES"):
                            print(f"  {kind}: {name}: {old[:3]} {new[:4]}")
            line = f"{os.path.basename(patch)}: {way}: {len(changed)} of {len(files)} files, {all_places} places"
            line += "".join(f", {count} {kind}" for kind, count in counts.items())
            if way != "Coccinelle" and not theirs:
                line += f"; {refused} refused"
            elif way != "Coccinelle":
                either = [name for name in files if ours[name] != texts[name] or theirs[name] != texts[name]]
                same = [name for name in either if ours[name] == theirs[name]]
                alike = [name for name in either if bare(ours[name]) == bare(theirs[name])]
                line += f"; {len(same)} of {len(either)} as Coccinelle, {len(alike)} but for blanks and braces; {refused} refused"
                if way == "--tidy" and os.environ.get("NAMES"):
                    for name in sorted(set(either) - set(same)):
                        print(f"  other bytes: {name}")
            print(line, flush=True)


if __name__ == "__main__":
    if len(sys.argv) < 4:
        sys.exit(__doc__)
    here = os.path.dirname(os.path.abspath(__file__))
    main(os.path.abspath(sys.argv[1]), sys.argv[2], sys.argv[3], sys.argv[4:] or sorted(glob.glob(f"{here}/tidy/*.cocci")))
