"""robust.py SPATCH BASE LIST PATCHES SEED COUNT: random cuts of patches and of files, and files that are odd; tells every run that ends with a
signal, a status or a line that isn't on the pages, takes over SECONDS, or changes a file that it refuses."""
import os, random, re, subprocess, sys, tempfile, time, glob

spatch, base, listed, patches, seed, count = sys.argv[1:]
SECONDS = 5
rng = random.Random(int(seed))
files = [l.strip() for l in open(listed)]
patches = sorted(glob.glob(patches + "/*.cocci"))
LINES = [re.compile(p, re.S) for p in (
    rb"spatch: p: patch fault (1|(([2-8]|1[0-2]|1[56]) at \d+|(9|17) in rule \d+|1[34] of [A-Za-z_]\w*)\n  p:\d+:\d+: [^\n]+)\n\Z",
    rb"(spatch: k\d?\.c: (reading \d+: item \d+ not read: (no tree|too deep|too many nodes)"
    rb"|refused: (file too long( after rule \d+)?|conflict in rule \d+ at token \d+|too many (witnesses in|environments after) rule \d+))\n"
    rb"(  k\d?\.c:\d+:\d+: (no tree|too deep|too many nodes|conflict in rule \d+)\n)?)*\Z")]


def cut(data):
    kind = rng.randrange(7)
    a = rng.randrange(len(data) + 1)
    b = min(len(data), a + rng.randrange(1, 200))
    if kind == 0:
        return data[:a]
    if kind == 1:
        return data[a:]
    if kind == 2:
        return data[:a] + data[b:]
    if kind == 3:
        return data[:a] + data[a:b] + data[a:b] + data[b:]
    if kind == 4:
        return data[:a] + bytes(rng.choice(b"(){}[];,*@-+.\\|&\"'/#\n \0\xff") for _ in range(rng.randrange(1, 5))) + data[a:]
    if kind == 5:
        c = rng.randrange(len(data) + 1)
        return data[:a] + data[c:c + 100] + data[b:]
    return bytes(c if rng.random() > 0.01 else rng.randrange(256) for c in data)


bad, slow, statuses = 0, 0.0, {}
for i in range(int(count)):
    patch = open(rng.choice(patches), "rb").read()
    text = open(os.path.join(base, rng.choice(files)), "rb").read()[:20000]
    for _ in range(rng.randrange(3)):
        patch = cut(patch)
    for _ in range(rng.randrange(4)):
        text = cut(text)
    with tempfile.TemporaryDirectory() as folder:
        for name, data in (("p", patch), ("k.c", text), ("k2.c", text[:len(text) // 2])):
            open(os.path.join(folder, name), "wb").write(data)
        words = [spatch, "--sp-file", "p", *rng.choice([[], ["--witnesses"], ["--in-place"], ["--jobs", "3"]]), "k.c", "k2.c"]
        began = time.process_time()
        try:
            got = subprocess.run(words, cwd=folder, capture_output=True, timeout=60)
        except subprocess.TimeoutExpired:
            got = None
        user = os.times().children_user
        wrong = None
        if got is None:
            wrong = "no end"
        elif got.returncode not in (0, 2, 4):
            wrong = f"status {got.returncode}"
        elif not LINES[0 if got.returncode == 2 else 1].match(got.stderr):
            wrong = f"line {got.stderr[-200:]!r}"
        elif (got.returncode == 4) != (b"refused" in got.stderr):
            wrong = "status 4 and lines differ"
        elif len(words) == 5 and got.returncode == 0 and not got.stdout and text:
            wrong = "a file is lost"
        statuses[got.returncode if got else "none"] = statuses.get(got.returncode if got else "none", 0) + 1
        if wrong:
            bad += 1
            keep = os.path.join(tempfile.gettempdir(), f"robust-{seed}-{i}")
            os.makedirs(keep, exist_ok=True)
            for name in ("p", "k.c", "k2.c"):
                open(os.path.join(keep, name), "wb").write(open(os.path.join(folder, name), "rb").read())
            print(i, wrong, keep, words[3:])
print(f"{count} runs, {bad} wrong, statuses {statuses}, {os.times().children_user:.1f} s in all")
