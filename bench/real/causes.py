"""causes.py SPATCH BASE ERR.. : the items that were not read, by kind, and for each a smallest part that the engine doesn't read.
ERR holds the lines of a run over files under BASE (paths relative to it), reading 0 counts. Parts are tried by the engine itself:
each as a function or an item of its own in one file."""
import collections, os, re, subprocess, sys, tempfile

sys.path.insert(0, os.path.dirname(os.path.abspath(__file__)))
import cut

spatch, base = sys.argv[1:3]
LINE = re.compile(r"spatch: (.*): reading 0: item (\d+) not read: (.*)")
skipped = collections.defaultdict(dict)
for name in sys.argv[3:]:
    for line in open(name, errors="replace"):
        m = LINE.match(line)
        if m:
            skipped[m.group(1)][int(m.group(2))] = m.group(3)


def unread(texts):
    """Which of the texts, each one item, aren't read. Texts that aren't one item count as read."""
    bad = set()
    where, whole, at = {}, [], 0
    for i, text in enumerate(texts):
        n = len(cut.items(cut.visible(text)))
        if n == 1:
            where[at] = i
            whole.append(text)
            at += 1
    for first in range(0, len(whole), 20000):
        with tempfile.TemporaryDirectory() as folder:
            open(folder + "/p.cocci", "w").write("@@\n@@\n* no_such_call_in_here();\n")
            open(folder + "/k.c", "w", encoding="latin-1").write("\n".join(whole[first:first + 20000]) + "\n")
            err = subprocess.run([spatch, "--sp-file", "p.cocci", "k.c"], cwd=folder, capture_output=True).stderr.decode("latin-1")
            for m in re.finditer(r"item (\d+) not read", err):
                bad.add(where[first + int(m.group(1))])
    return bad


def join(tokens):
    return " ".join(tokens)


def depth_of(t):
    return 1 if t in ("(", "[", "{") else -1 if t in (")", "]", "}") else 0


def parts(tokens):
    """Statements of a list of tokens, roughly: cut after `;` and `}` at depth 0, an `else` and a `while` of `do` staying."""
    out, now, depth = [], [], 0
    for i, t in enumerate(tokens):
        now.append(t)
        depth += depth_of(t)
        following = tokens[i + 1] if i + 1 < len(tokens) else ""
        if depth == 0 and t in (";", "}") and following not in ("else", ";", ",", ")") and not (now[0] == "do" and following == "while"):
            if not (t == "}" and following in ("while",) and now[0] == "do"):
                out.append(now)
                now = []
    if now:
        out.append(now)
    return out


def function_body(tokens):
    """Where the body of a function item begins, or None."""
    depth = 0
    for i, t in enumerate(tokens):
        if t == "{" and depth == 0 and i and tokens[-1] == "}":
            return i if tokens[i - 1] == ")" or i and tokens[0] != "struct" and ")" in tokens[:i] and "=" not in tokens[:i] else None
        depth += depth_of(t)
    return None


def inner(tokens):
    """The bodies inside a statement: each list between `{` and its `}`, the outermost."""
    out, depth, begin = [], 0, None
    for i, t in enumerate(tokens):
        if t == "{":
            if depth == 0:
                begin = i
            depth += 1
        elif t == "}":
            depth -= 1
            if depth == 0:
                out.append(tokens[begin + 1:i])
    return out


total_items, total_files, kinds = 0, 0, collections.Counter()
whole = []
listed = [l.strip() for l in open(os.environ["LIST"])] if "LIST" in os.environ else sorted(skipped)
for name in listed:
    text = open(os.path.join(base, name), encoding="latin-1").read()
    shown = cut.visible(text)
    spans = cut.items(shown)
    total_items += len(spans)
    total_files += 1
    for k, why in sorted(skipped.get(name, {}).items()):
        kinds[why] += 1
        a, b = spans[k]
        whole.append((name, text[:shown[a][1]].count("\n") + 1, [t for t, _, _ in shown[a:b]]))
print(f"{total_files} files, {total_items} items, {len(whole)} not read, in {len(skipped)} files: {dict(kinds)}")

# Level by level: a function's head with an empty body, its statements, the statements in them.
work = [(i, item, "item") for i, (_, _, item) in enumerate(whole)]
least = {}
for level in range(12):
    tries, owner = [], []
    for i, toks, kind in work:
        if kind == "item":
            at = function_body(toks)
            if at is None:
                least[i] = ("item", toks)
                continue
            tries.append(join(toks[:at]) + " { }"); owner.append((i, toks[:at], "head", toks))
            for part in parts(toks[at + 1:-1]):
                tries.append("void k(void) { " + join(part) + " }"); owner.append((i, part, "statement", toks))
        else:
            found = [p for body in inner(toks) for p in parts(body)]
            if not found:
                least[i] = ("statement", toks)
                continue
            for part in found:
                tries.append("void k(void) { " + join(part) + " }"); owner.append((i, part, "statement", toks))
    bad = unread(tries)
    had = {i: (kind, toks) for i, toks, kind in work if i not in least}
    work, seen = [], set()
    for j in sorted(bad):
        i, part, kind, _ = owner[j]
        if i in seen:
            continue
        seen.add(i)
        if kind == "head":
            least[i] = ("head", part)
        else:
            work.append((i, part, "statement"))
    for i, (kind, toks) in had.items():
        if i not in seen:
            least[i] = ("whole " + kind, toks)
    if not work:
        break

CAUSES = [
    ("asm", lambda k, t: any(x in t for x in ("asm", "__asm__", "__asm"))),
    ("typeof", lambda k, t: any(x in t for x in ("typeof", "__typeof__", "__typeof", "__auto_type"))),
    ("statement expression", lambda k, t: any(t[i:i + 2] == ["(", "{"] and (i == 0 or t[i - 1] != ")") for i in range(len(t)))),
    ("_Generic or _Static_assert", lambda k, t: "_Generic" in t or "_Static_assert" in t),
]
counts, examples = collections.Counter(), collections.defaultdict(list)
for i, (kind, toks) in least.items():
    for cause, test in CAUSES:
        if test(kind, toks):
            break
    else:
        cause = "other " + kind
    counts[cause] += 1
    examples[cause].append((whole[i][0], whole[i][1], join(toks)))
for cause, n in counts.most_common():
    print(f"== {cause}: {n}")
out = os.environ.get("EXAMPLES")
if out:
    with open(out, "w", encoding="latin-1") as o:
        for cause, n in counts.most_common():
            for name, line, text in examples[cause]:
                o.write(f"{cause}\t{name}:{line}\t{text[:400]}\n")
