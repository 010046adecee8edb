"""synthetic.py OURS THEIRS SEED FUNCTIONS FOLDER: random small functions, and patches over their words; tells the functions in which the two
tools' results differ, blanks aside, for each patch: without loops and with loops apart."""
import os, random, re, subprocess, sys

ours, theirs, seed, count, folder = sys.argv[1:]
rng = random.Random(int(seed))
os.makedirs(folder, exist_ok=True)


def statement(depth, loops, label):
    kind = rng.randrange(14 if depth else 7)
    x, y = rng.choice("pqr"), rng.choice("pqr")
    if kind < 2:
        return [f"a({x});"]
    if kind < 4:
        return [f"b({x});"]
    if kind == 4:
        return [f"{x} = c({y});"]
    if kind == 5:
        return [f"d({x}, {y});"]
    if kind == 6:
        return [rng.choice([f"return {x};", f"return {x};", f"e({x} ? {y} : 0);", "goto out;" if label else f"a({y});"])]
    inside = [s for _ in range(rng.randrange(1, 4)) for s in statement(depth - 1, loops, label)]
    inside = ["\t" + s for s in inside]
    head = rng.choice([f"if ({x})", f"if (!{x})", f"if (c({x}))", f"if ({x} == NULL)"])
    if loops and kind == 13:
        return [rng.choice([f"while ({x}) {{", f"for (i = 0; i < {x}; i++) {{", f"list_for_each_entry({x}, h, l) {{"]), *inside, "}"]
    if kind == 12:
        return [f"switch ({x}) {{", "case 1:", *inside, "\tbreak;", "case 2:", f"\ta({y});", "\tbreak;", *rng.choice([[], ["default:", f"\tb({y});"]]), "}"]
    if kind >= 10:
        other = ["\t" + s for _ in range(rng.randrange(1, 3)) for s in statement(depth - 1, loops, label)]
        return [head + " {", *inside, "} else {", *other, "}"]
    if kind == 9:
        return [head, "\treturn " + y + ";"]
    return [head + " {", *inside, "}"]


def function(k, loops):
    label = rng.random() < 0.3
    body = [s for _ in range(rng.randrange(3, 8)) for s in statement(2, loops, label)]
    tail = ["\tb(p);"] if rng.random() < 0.3 else []
    return "\n".join([f"int f{k}(int p, int q, int r)", "{", *["\t" + s for s in body], *(["out:", *tail] if label else tail), "\treturn 0;", "}"]) + "\n"


PATCHES = {
    "rename": "@@\nexpression x;\n@@\n- a(x)\n+ a2(x)\n",
    "dots": "@@\nexpression x;\n@@\n- a(x);\n+ a2(x);\n  ...\n- b(x);\n+ b2(x);\n",
    "dots_exists": "@r exists@\nexpression x;\n@@\n- a(x);\n+ a2(x);\n  ...\n- b(x);\n+ b2(x);\n",
    "dots_when": "@@\nexpression x;\n@@\n- a(x);\n+ a2(x);\n  ... when != x\n- b(x);\n+ b2(x);\n",
    "dots_when_exists": "@r exists@\nexpression x, y;\n@@\n- a(x);\n+ a2(x);\n  ... when != c(x)\n- d(x, y);\n+ d2(x, y);\n",
    "dots_any": "@r exists@\nexpression x;\n@@\n- a(x);\n+ a2(x);\n  ... when any\n- b(x);\n+ b2(x);\n",
    "dots_strict": "@@\nexpression x;\n@@\n- a(x);\n+ a2(x);\n  ... when strict\n- b(x);\n+ b2(x);\n",
    "disjunction": "@@\nexpression x, y;\n@@\n(\n- a(x);\n+ a2(x);\n|\n- b(x);\n+ b2(x);\n|\n- d(x, y);\n+ d2(y, x);\n)\n",
    "disjunction_dots": "@r exists@\nexpression x;\n@@\n- a(x);\n+ a2(x);\n  ...\n(\n- b(x);\n+ b2(x);\n|\n- return x;\n+ return c2(x);\n)\n",
    "if_call": "@@\nexpression x;\n@@\n- if (x) {\n- a(x);\n- }\n+ a2(x);\n",
    "if_body": "@@\nexpression x;\n@@\n  if (x) {\n  ...\n- b(x);\n+ b2(x);\n  ...\n  }\n",
    "if_null": "@@\nexpression x;\n@@\n- if (!x)\n- return x;\n+ if (no(x))\n+ return x;\n",
    "function_nest": "@r exists@\nidentifier f;\nexpression x;\n@@\n  int f(...)\n  {\n  <...\n- a(x);\n+ a2(f, x);\n  ...>\n  }\n",
    "function_nest_forall": "@@\nidentifier f;\nexpression x;\n@@\n  int f(...)\n  {\n  <...\n- a(x);\n+ a2(f, x);\n  ...>\n  }\n",
    "nest_plus": "@r exists@\nidentifier f;\nexpression x, y;\n@@\n  int f(...)\n  {\n  <+...\n- x = c(y);\n+ x = c2(f, y);\n  ...+>\n  }\n",
    "return_after": "@r exists@\nexpression x, y;\n@@\n  x = c(y);\n  ... when != b(x)\n- return x;\n+ return x2;\n",
    "statement": "@@\nexpression x;\nstatement S;\n@@\n- if (!x)\n+ if (no(x))\n  S\n",
    "else": "@@\nexpression x;\nstatement S1, S2;\n@@\n- if (x == NULL)\n+ if (no(x))\n  S1\n  else S2\n",
    "inherited": "@r exists@\nexpression x, y;\n@@\n  x = c(y);\n\n@@\nexpression r.x;\n@@\n- a(x);\n+ a2(x);\n",
    "sequence": "@@\nexpression x, y;\n@@\n- a(x);\n- b(y);\n+ ab(x, y);\n",
    "switch": "@@\nexpression x;\n@@\n- break;\n+ { a2(); break; }\n",
    "three": "@r exists@\nexpression x, y, z;\n@@\n  x = c(y);\n  ... when != a(x)\n- d(x, z);\n+ d2(x, z);\n  ... when != b(x)\n- return x;\n+ return x2;\n",
}
for loops in (False, True):
    texts = [function(k, loops) for k in range(int(count))]
    name = os.path.join(folder, "loops.c" if loops else "plain.c")
    open(name, "w").write("\n".join(texts))
    open(os.path.join(folder, "empty.iso"), "w").close()
    for patch, text in PATCHES.items():
        p = os.path.join(folder, patch + ".cocci")
        open(p, "w").write(text)
        got = {}
        for tool in ("ours", "theirs"):
            work = os.path.join(folder, f"{patch}.{tool}.c")
            # Each function is a file of its own where a refusal would hide the others.
            open(work, "w").write("\n".join(texts))
            words = [ours, "--sp-file", p, "--in-place", work] if tool == "ours" else [
                theirs, "--very-quiet", "--allow-inconsistent-paths", "--no-show-diff", "--iso-file", os.path.join(folder, "empty.iso"), "--in-place", "--sp-file", p, work]
            run = subprocess.run(words, capture_output=True, text=True)
            got[tool] = (run.returncode, run.stderr.strip()[-150:], re.split(r"(?m)^(?=int f\d+\()", open(work).read())[1:])
        differ = [k for k in range(int(count)) if "".join(got["ours"][2][k].split()) != "".join(got["theirs"][2][k].split())]
        touched = [sum("".join(texts[k].split()) != "".join(got[t][2][k].split()) for k in range(int(count))) for t in ("ours", "theirs")]
        print(f"{'loops' if loops else 'plain'} {patch}: changed {touched[0]} and {touched[1]}, differ {len(differ)} {differ[:8]}", got["ours"][1], got["theirs"][1], flush=True)
