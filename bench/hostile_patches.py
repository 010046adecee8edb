#!/usr/bin/env python3
"""Times patches that are written to be dear: many names, many pieces of `when` code, branches within one another.

Usage: bench/hostile_patches.py PROGRAM [LIMIT]

Each patch is read and applied to a file of one function. Printed: a line for each patch, with its size, the seconds of processor time that
the run took, the best of three, its memory, and how it ended. A run that takes more than LIMIT seconds, 60 where it is left out, is
stopped, and that patch isn't run again.
"""
import os
import resource
import sys
import tempfile

RUNS = 3

FILE = "void t(void)\n{\n\tf();\n\tg();\n}\n"

ENDS = {0: "applied", 2: "refused"}


def names(count):
    return [f"x{i}" for i in range(count)]


def rule(xs, body):
    return f"@r@\nexpression {', '.join(xs)};\n@@\n{body}"


def taken(xs):
    """A further rule, which takes all of these names from the first."""
    return "@s@\n" + "".join(f"expression r.{x};\n" for x in xs) + f"@@\n- k({', '.join(xs)});\n"


def call(function, xs):
    return f"{function}({', '.join(xs)});\n"


def pieces(count):
    xs = names(count)
    return rule(xs, "- f();\n..." + "".join(f"\n    when != {x}" for x in xs) + "\n  g();\n")


def branches_with_pieces(count, dots):
    xs = names(count * dots)
    branches = ["- f();\n" + "".join(f"  ... when != {x}\n  g();\n" for x in xs[i * dots:(i + 1) * dots]) for i in range(count)]
    return rule(xs, "(\n" + "|\n".join(branches) + ")\n")


def many_dots(count, dots):
    xs = names(count)
    return rule(xs, "- " + call("f", xs) + "...\n  g();\n" * dots + "...\n  " + call("h", xs))


def wide_scope(around, own):
    xs = names(around + own)
    whens = "".join(f"\n    when != {x}" for x in xs[around:])
    return rule(xs, "- " + call("f", xs[:around]) + f"...{whens}\n  " + call("h", xs[:around]))


def names_in_both(count, statements):
    xs = names(count)
    body = "  z();\n" * statements
    return rule(xs, f"(\n- f();\n{body}  {call('f', xs)}|\n- g();\n{body}  {call('g', xs)})\n") + taken(xs)


def expressions_in_both(count):
    xs = names(count)
    arguments = ", ".join(xs)
    return rule(xs, f"- k(\\( f({arguments}) \\| g({arguments}) \\));\n") + taken(xs)


def conjunction(count):
    xs = names(count)
    return rule(xs, "(\n" + "&\n".join(("- " if i == 0 else "  ") + f"f({x});\n" for i, x in enumerate(xs)) + ")\n")


def within_one_another(levels, arguments):
    body = "  " + call("f", ["x"] + ["1"] * arguments)
    for _ in range(levels):
        body = f"(\n{body}|\n  g();\n)\n  h();\n"
    return rule(["x"], "- z();\n" + body)


def in_last_branches(levels, statements):
    body = "".join(f"  f{i}();\n" for i in range(statements))
    for _ in range(levels):
        body = f"(\n  g();\n|\n{body})\n  h();\n"
    return rule(["x"], "- z();\n" + body)


def dots_behind_branches(branches, xs):
    """Each branch is a call, and dots follow the disjunction, so each branch's end has the last calls of all beside them."""
    calls = "|\n".join("  " + call(f"f{i}", arguments) for i, arguments in enumerate(branches))
    return rule(xs, f"- z();\n(\n{calls})\n...\n  g();\n")


def dots_behind_long_branches(count, arguments):
    return dots_behind_branches([["x"] * arguments] * count, ["x"])


def dots_behind_the_same_names(count, own):
    xs = names(own)
    return dots_behind_branches([xs] * count, xs)


def dots_behind_own_names(count, own):
    xs = names(count * own)
    return dots_behind_branches([xs[i * own:(i + 1) * own] for i in range(count)], xs)


def comb(count, name, last):
    for i in range(count):
        last = f"(\n  {name}_{i}();\n|\n{last})\n"
    return last


def dots_behind_combs(combs, each):
    """Branches within branches, all of them in one branch that quantifies a variable of one of the last ones."""
    body = "  q();\n"
    for i in range(combs):
        own = "x" if i == 0 else ""
        body = "(\n" + comb(each, f"c{i}", f"  f{i}({own});\n") + f"|\n{body})\n"
    return rule(["x", "y"], f"- z(y);\n(\n  f(x);\n  g(x);\n{body}|\n  w();\n)\n...\n  h();\n")


def blocks(conditions, each):
    body = "".join("  if (a) {\n" + "    {}\n" * each + "  }\n" for _ in range(conditions))
    return rule(["x"], "- z(x);\n" + body)


PATCHES = (
    ("3,000 pieces of `when` code, a name each", pieces(3000)),
    ("12,000 of them", pieces(12000)),
    ("800 branches of eight dots, with a piece and a name of its own each", branches_with_pieces(800, 8)),
    ("600 dots between two calls of 2,000 names", many_dots(2000, 600)),
    ("10,000 pieces with names of their own between two calls of 1,900 names", wide_scope(1900, 10000)),
    ("8,000 names in both branches of a disjunction, each taken by a later rule", names_in_both(8000, 0)),
    ("the same behind 1,000 statements", names_in_both(8000, 1000)),
    ("8,000 names in both branches of a disjunction of expressions, each taken by a later rule", expressions_in_both(8000)),
    ("a conjunction of 3,500 branches, a name each", conjunction(3500)),
    ("10 disjunctions within one another, a statement behind each, innermost a call of 20,000 arguments", within_one_another(10, 20000)),
    ("11 of them, 100,000 arguments", within_one_another(11, 100000)),
    ("190 disjunctions, each in the last branch of another, innermost 1,000 statements", in_last_branches(190, 1000)),
    ("100 branches of 3,000 arguments each, and dots behind them", dots_behind_long_branches(100, 3000)),
    ("100 branches with the same 1,200 names, and dots behind them", dots_behind_the_same_names(100, 1200)),
    ("250 branches with 200 names of their own each, and dots behind them", dots_behind_own_names(250, 200)),
    ("40 combs of 90 branches each, in one branch that quantifies a variable of one of them, and dots behind it", dots_behind_combs(40, 90)),
    ("25 conditions of 3,900 blocks each", blocks(25, 3900)),
)


def run(words, limit):
    """Seconds of processor time, megabytes at the peak, and how it ended; nothing where it took too long."""
    process = os.fork()
    if process == 0:
        resource.setrlimit(resource.RLIMIT_CPU, (limit, limit))
        sink = os.open(os.devnull, os.O_WRONLY)
        os.dup2(sink, 1)
        os.dup2(sink, 2)
        os.execv(words[0], words)
    _, status, usage = os.wait4(process, 0)
    if os.WIFSIGNALED(status):
        return None
    end = os.WEXITSTATUS(status)
    return usage.ru_utime + usage.ru_stime, usage.ru_maxrss / 1000, ENDS.get(end, f"status {end}")


def measure(words, limit):
    first = run(words, limit)
    if first is None:
        return f"more than {limit} s"
    runs = [first] + [r for r in (run(words, limit) for _ in range(RUNS - 1)) if r is not None]
    seconds, megabytes, end = min(runs)
    return f"{seconds:.3f} s, {megabytes:.0f} MB, {end}"


def main():
    if len(sys.argv) not in (2, 3):
        raise SystemExit(__doc__)
    program = os.path.abspath(sys.argv[1])
    limit = int(sys.argv[2]) if len(sys.argv) == 3 else 60
    with tempfile.TemporaryDirectory() as top:
        with open(f"{top}/t.c", "w", encoding="utf-8") as file:
            file.write(FILE)
        for number, (name, patch) in enumerate(PATCHES):
            with open(f"{top}/{number}.cocci", "w", encoding="utf-8") as file:
                file.write(patch)
            words = [program, "--sp-file", f"{top}/{number}.cocci", f"{top}/t.c"]
            print(f"{name} ({len(patch) / 1000:.0f} KB): {measure(words, limit)}", flush=True)


if __name__ == "__main__":
    main()
