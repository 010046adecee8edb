"""kernel_scripts.py SPATCH FOLDER OUT: the scripts of a kernel's scripts/coccinelle without their script rules and without `#`
lines, put into OUT, and for each whether SPATCH takes it, or its first fault and the text there."""
import collections, glob, os, re, subprocess, sys

spatch, folder, out = sys.argv[1:]
os.makedirs(out, exist_ok=True)
c_file = os.path.join(out, "empty.c")
open(c_file, "w").write("")
counts, examples = collections.Counter(), {}
for path in sorted(glob.glob(folder + "/**/*.cocci", recursive=True)):
    keep, state, script = [], "top", False
    for line in open(path, errors="replace").read().split("\n"):
        if state in ("top", "body") and line.startswith("@"):
            script = bool(re.match(r"@\s*(script|initialize|finalize)", line))
            state = "declarations"
            whole = line.count("@") >= 2
            if not whole:
                state = "header"
        elif state == "header" and "@" in line:
            state = "declarations"
        elif state == "declarations" and line.startswith("@@"):
            state = "body"
        if not script:
            keep.append(line)
    name = os.path.join(out, os.path.relpath(path, folder).replace("/", "-"))
    text = "\n".join(l for l in keep if not l.startswith("#"))
    open(name, "w").write(text)
    got = subprocess.run([spatch, "--sp-file", name, c_file], capture_output=True, text=True).stderr.strip()
    m = re.search(r"fault (\d+)(?: at (\d+))?", got)
    kind = "fault " + m.group(1) if m else "taken"
    at = text.encode()[int(m.group(2)):].decode(errors="replace").split("\n")[0][:60] if m and m.group(2) else got[-60:]
    counts[kind] += 1
    examples.setdefault(kind, []).append((os.path.basename(name), at))
print(sum(counts.values()), dict(counts))
for kind, rows in sorted(examples.items()):
    print("==", kind)
    for row in rows:
        print("   ", *row)
