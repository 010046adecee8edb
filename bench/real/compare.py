"""compare.py run OURS THEIRS BASE LIST MOST WORK PATCH.. : runs both tools over the files of LIST (paths under BASE) in which the words stand that the
patch's `// words:` line names, at most MOST of them spread evenly, each on a copy of its own under WORK, and writes WORK/NAME.json,
and the texts that differ, blanks and comments aside. Both get no isomorphisms; with ISO=FILE in the environment ours gets that file and theirs its own standard ones."""
import json, os, re, shutil, subprocess, sys, time

sys.path.insert(0, os.path.dirname(os.path.abspath(__file__)))
import cut


def timed(words, cwd, out, err, seconds):
    began = time.time()
    note = err + ".time"
    try:
        with open(out, "wb") as o, open(err, "wb") as e:
            code = subprocess.run(["/usr/bin/time", "-f", "%U %S %M", "-o", note, *words], cwd=cwd, stdout=o, stderr=e, timeout=seconds).returncode
    except subprocess.TimeoutExpired:
        return {"status": "over time", "user": seconds, "system": 0, "peak": 0, "wall": seconds}
    user, system, peak = open(note).read().split("\n")[-2].split()
    return {"status": code, "user": float(user), "system": float(system), "peak": int(peak), "wall": time.time() - began}


def bare(text):
    return "".join(text.split())


def changed(base, tree, files):
    out = []
    for f in files:
        a, b = open(os.path.join(base, f), "rb").read(), open(os.path.join(tree, f), "rb").read()
        if a != b:
            out.append(f)
    return out


def run(ours, theirs, base, listed, most, work, patches):
    every = open(listed).read().split()
    iso = os.environ.get("ISO")
    os.makedirs(work, exist_ok=True)
    work = os.path.abspath(work)
    empty = os.path.join(work, "empty.iso")
    open(empty, "w").close()
    for patch in patches:
        name = os.path.basename(patch)[:-6] + (".iso" if iso else "")
        patch = os.path.abspath(patch)
        words = re.search(r"^// words: (.*)$", open(patch).read(), re.M)
        choices = [w.split() for w in words.group(1).split("|")] if words else [[]]
        choices = [[re.compile(rb"\b" + w.encode() + rb"\b") for w in c] for c in choices]
        files = []
        for f in every:
            data = open(os.path.join(base, f), "rb").read()
            if any(all(w.search(data) for w in c) for c in choices):
                files.append(f)
        step = max(1.0, len(files) / int(most))
        files = [files[int(i * step)] for i in range(min(int(most), len(files)))]
        got = {"patch": name, "files": len(files), "bytes": sum(os.path.getsize(os.path.join(base, f)) for f in files)}
        trees = {t: os.path.join(work, "tree." + t) for t in ("ours", "theirs")}
        for tool, tree in trees.items():
            shutil.rmtree(tree, ignore_errors=True)
            for f in files:
                os.makedirs(os.path.dirname(os.path.join(tree, f)), exist_ok=True)
                shutil.copy(os.path.join(base, f), os.path.join(tree, f))
            stem = os.path.join(work, name + "." + tool)
            if tool == "ours":
                words = [ours, "--sp-file", patch, *(["--iso-file", os.path.abspath(iso)] if iso else []), "--in-place", *files]
            else:
                words = [theirs, "--very-quiet", "--no-show-diff", "--no-includes", "--allow-inconsistent-paths", "--timeout", "200", *([] if iso else ["--iso-file", empty]),
                         "--in-place", "--sp-file", patch, "--dir", "."]
            got[tool] = timed(words, tree, stem + ".out", stem + ".err", 1500)
            got[tool]["changed"] = changed(base, tree, files)
        got["differ"] = []
        for f in sorted(set(got["ours"]["changed"]) | set(got["theirs"]["changed"])):
            text = {t: open(os.path.join(trees[t], f), encoding="latin-1").read() for t in trees}
            if bare(text["ours"]) != bare(text["theirs"]) and cut.tokens(text["ours"]) != cut.tokens(text["theirs"]):
                got["differ"].append(f)
                for t in trees:
                    keep = os.path.join(work, name + ".differ", t, f)
                    os.makedirs(os.path.dirname(keep), exist_ok=True)
                    open(keep, "w", encoding="latin-1").write(text[t])
        json.dump(got, open(os.path.join(work, name + ".json"), "w"))
        print(name, len(files), got["bytes"], {t: (got[t]["status"], got[t]["user"], got[t]["peak"], len(got[t]["changed"])) for t in trees}, len(got["differ"]), flush=True)


if __name__ == "__main__":
    run(*sys.argv[2:8], sys.argv[8:])
