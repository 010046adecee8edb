#!/usr/bin/env python3
"""Typed metavariables beside Coccinelle: both tools over C files under the patches of bench/typed, place by place.

Usage: bench/typed_beside_coccinelle.py PROGRAM SPATCH FOLDER WORK [PATCH..]

PROGRAM is the program, SPATCH Coccinelle's spatch; FOLDER has C files, in folders of any depth. WORK is a folder in which both edit
copies; a run that WORK has from before isn't made again. Without a PATCH those of bench/typed are taken. Each patch
replaces one word W by another, V, so the k-th W or V of an edited text is the k-th of the file, whatever the layout. The tools
run one after the other, each with one job, without isomorphisms and without headers.

The files that differ are then edited again by the patch with `expression` in place of its types, to tell whether the types are the cause.

Printed for each patch: user and system seconds of both, peak memory, the files and places that each changed, and the places that both
found; then each place that only one found, with its kind, file, line and text. A kind is
    type     the other finds the place without the types
    line     the other doesn't, and it is on a line that begins with `#` or continues one
    arm      the other doesn't, and it is in an arm of `#if` that PROGRAM doesn't read
    item     the other doesn't, and it is PROGRAM, which says that it doesn't read the item
    other    the other doesn't, for another cause: Coccinelle doesn't read the function, or numbers are written in another way
Files whose texts differ from the original in more than the word are told too.
"""
import collections
import os
import re
import shutil
import subprocess
import sys

HERE = os.path.dirname(os.path.abspath(__file__))
sys.path.insert(0, os.path.join(HERE, "real"))
import cut

NOT_READ = re.compile(r"spatch: (.*): reading 0: item (\d+) not read: ")


def read(*parts):
    with open(os.path.join(*parts), encoding="latin-1", newline="") as file:
        return file.read()


def words(patch):
    """The word that the patch removes, and the one that it adds."""
    text = read(patch)
    return re.search(r"^- *(\w+)", text, re.M).group(1), re.search(r"^\+ *(\w+)", text, re.M).group(1)


def run(command, folder, files, tree):
    """Runs the command on a copy, TREE, of the files; what it prints goes to TREE.out and TREE.err, its cost to TREE.cost, which is
    returned: its status, user and system seconds, peak memory in MB."""
    if not os.path.exists(tree + ".cost"):
        shutil.rmtree(tree, ignore_errors=True)
        for file in files:
            os.makedirs(os.path.dirname(os.path.join(tree, file)), exist_ok=True)
            shutil.copy(os.path.join(folder, file), os.path.join(tree, file))
        with open(tree + ".out", "wb") as printed, open(tree + ".err", "wb") as errors:
            process = subprocess.Popen(command, cwd=tree, stdout=printed, stderr=errors)
            _, status, usage = os.wait4(process.pid, 0)
        with open(tree + ".cost", "w") as cost:
            cost.write(f"{os.waitstatus_to_exitcode(status)} {usage.ru_utime} {usage.ru_stime} {usage.ru_maxrss / 1024}\n")
    return read(tree + ".cost").split()


def found(original, edited, pair):
    """The numbers, among the words W and V of the original, of those that became V; and whether nothing else changed."""
    old, new = pair
    both = re.compile(rf"\b(?:{old}|{new})\b")
    before, after = both.findall(original), both.findall(edited)
    same = len(before) == len(after) and "".join(both.sub("", original).split()) == "".join(both.sub("", edited).split())
    return {k for k, (word, now) in enumerate(zip(before, after)) if word != now}, same


def untyped(patch):
    """The text of the patch with `expression x;` in place of its other declarations."""
    head, declarations, code = read(patch).split("@@\n", 2)
    declarations = re.sub(r"^.*?(\w+);$", r"expression \1;", declarations, flags=re.M)
    return f"@@\n{declarations}@@\n{code}"


def kinds(text, skipped):
    """A function from a place in the text, an offset, to its kind where the reading is the cause; `skipped` are the numbers of the
    items that aren't read."""
    shown = cut.visible(text)
    starts = {start for _, start, _ in shown}
    unread = [(shown[a][1], shown[b - 1][2]) for n, (a, b) in enumerate(cut.items(shown)) if n in skipped]
    lines = [(a, b) for kind, a, b in cut.pieces(text) if kind == "line"]

    def kind(at):
        if any(a <= at < b for a, b in lines):
            return "line"
        if at not in starts:
            return "arm"
        if any(a <= at < b for a, b in unread):
            return "item"
        return "other"

    return kind


def edit(program, spatch, folder, files, patch, work, name):
    """Both tools on copies of the files: the cost and the copies, by tool."""
    trees = {tool: os.path.join(work, f"{name}.{tool}") for tool in ("ours", "theirs")}
    empty = os.path.join(work, "empty.iso")
    open(empty, "w").close()
    commands = {
        "ours": [program, "--sp-file", patch, "--in-place", *files],
        "theirs": [spatch, "--very-quiet", "--no-show-diff", "--no-includes", "--timeout", "200", "--iso-file", empty,
                   "--in-place", "--sp-file", patch, "--dir", "."],
    }
    return {tool: run(command, folder, files, trees[tool]) for tool, command in commands.items()}, trees


def compare(program, spatch, folder, files, patch, work):
    name, pair = os.path.basename(patch)[:-6], words(patch)
    costs, trees = edit(program, spatch, folder, files, patch, work, name)
    for tool, (status, user, system, peak) in costs.items():
        print(f"{name}: {tool}: status {status}, {float(user):.1f} s and {float(system):.1f} s of the system, {float(peak):.0f} MB")
    skipped = collections.defaultdict(set)
    for line in read(trees["ours"] + ".err").splitlines():
        match = NOT_READ.match(line)
        if match:
            skipped[match.group(1)].add(int(match.group(2)))
        elif not line.startswith("  "):
            print(f"{name}: {line}")
    count, changed, differ = collections.Counter(), collections.Counter(), {}
    for file in files:
        original, places = read(folder, file), {}
        if not re.search(rf"\b{pair[0]}\b", original):
            continue
        for tool, tree in trees.items():
            edited = read(tree, file)
            places[tool], same = found(original, edited, pair) if edited != original else (set(), True)
            count[tool] += len(places[tool])
            changed[tool] += edited != original
            if not same:
                print(f"{name}: {tool} changed more of {file}")
        count["both"] += len(places["ours"] & places["theirs"])
        if places["ours"] != places["theirs"]:
            differ[file] = places
    for tool in trees:
        print(f"{name}: {tool}: {changed[tool]} files changed, {count[tool]} places")
    print(f"{name}: {count['both']} places found by both")
    if not differ:
        return
    plain = os.path.join(work, f"{name}.untyped.cocci")
    with open(plain, "w") as text:
        text.write(untyped(patch))
    _, plain_trees = edit(program, spatch, folder, list(differ), plain, work, f"{name}.untyped")
    rows = []
    for file, places in differ.items():
        original = read(folder, file)
        without = {tool: found(original, read(tree, file), pair)[0] for tool, tree in plain_trees.items()}
        at = [match.start() for match in re.finditer(rf"\b(?:{pair[0]}|{pair[1]})\b", original)]
        kind, lines = kinds(original, skipped[file]), original.split("\n")
        for k in sorted(places["ours"] ^ places["theirs"]):
            finder, other = ("ours", "theirs") if k in places["ours"] else ("theirs", "ours")
            line = original.count("\n", 0, at[k])
            rows.append((finder, "type" if k in without[other] else kind(at[k]), f"{file}:{line + 1}", lines[line].strip()))
    for (tool, kind), number in sorted(collections.Counter(row[:2] for row in rows).items()):
        print(f"{name}: only {tool}, {kind}: {number}")
    for row in rows:
        print(f"{name}\t" + "\t".join(row))
    sys.stdout.flush()


def main():
    if len(sys.argv) < 5:
        sys.exit(__doc__)
    program, spatch, folder, work = os.path.abspath(sys.argv[1]), shutil.which(sys.argv[2]), sys.argv[3], os.path.abspath(sys.argv[4])
    os.makedirs(work, exist_ok=True)
    patches = sys.argv[5:] or sorted(os.path.join(HERE, "typed", file) for file in os.listdir(os.path.join(HERE, "typed")) if file.endswith(".cocci"))
    files = sorted(os.path.relpath(os.path.join(base, file), folder)
                   for base, _, names in os.walk(folder) for file in names if file.endswith(".c"))
    print(f"{len(files)} files, {sum(os.path.getsize(os.path.join(folder, file)) for file in files) / 1e6:.1f} MB")
    for patch in patches:
        compare(program, spatch, folder, files, os.path.abspath(patch), work)


if __name__ == "__main__":
    main()
