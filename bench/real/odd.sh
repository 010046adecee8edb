#!/bin/sh
# odd.sh SPATCH PATCHES FOLDER: odd files and command lines; for each the status, seconds, peak memory in KB and the first line of the error output.
s=$1; p=$2; cd "$3" || exit 1
python3 - <<'P'
import os, random
rng = random.Random(5)
w = lambda n, b: open(n, "wb").write(b)
w("empty.c", b""); w("random.c", rng.randbytes(1 << 20)); w("nul.c", b"\0" * (1 << 20)); w("newlines.c", b"\n" * (1 << 24))
w("spaces16.c", b" " * (1 << 24)); w("spaces17.c", b" " * ((1 << 24) + 1))
fun = b"int f(struct d *d)\n{\n\tint r = g(d->dev.of_node);\n\n\tmutex_lock(&d->l);\n\tif (r)\n\t\treturn r;\n\tplatform_set_drvdata(d, r);\n\tmutex_unlock(&d->l);\n\treturn 0;\n}\n\n"
w("functions16.c", (fun * ((1 << 24) // len(fun)))); w("functions17.c", fun * (18000000 // len(fun)))
w("one_function.c", b"int f(void)\n{\n" + b"\tg(1);\n" * 19000 + b"\tmutex_lock(l);\n\tmutex_unlock(l);\n}\n")
w("one_function_too_large.c", b"int f(void)\n{\n" + b"\tg(1);\n" * 2000000 + b"}\n")
w("brackets200.c", b"int x = " + b"(" * 200 + b"1" + b")" * 200 + b";\n"); w("brackets201.c", b"int x = " + b"(" * 201 + b"1" + b")" * 201 + b";\n")
w("brackets_deep.c", b"int x = " + b"(" * 5000000 + b"1" + b")" * 5000000 + b";\n"); w("braces_deep.c", b"{" * 8000000); w("closing.c", b"}" * 8000000)
w("ifs.c", b"void f(void)\n{\n" + b"if (a) " * 100000 + b";\n}\n"); w("elses.c", b"void f(void)\n{\n" + b"if (a) b(); else " * 100000 + b";\n}\n")
w("sum.c", b"int x = 1" + b" + 1" * 1000000 + b";\n"); w("stars.c", b"int " + b"*" * 1000000 + b"x;\n"); w("casts.c", b"int x = " + b"(int)" * 1000000 + b"1;\n")
w("string.c", b'char *s = "' + b"a" * 16000000 + b'";\n'); w("string_open.c", b'char *s = "' + b"a" * 16000000); w("comment_open.c", b"int x; /* " + b"a" * 16000000)
w("ifdefs.c", b"#ifdef A\n" * 1000000); w("commas.c", b"int x = f(" + b"1, " * 3000000 + b"1);\n"); w("gotos.c", b"void f(void)\n{\n" + b"".join(b"l%d: if (a) goto l%d;\n" % (i, (i * 7919) % 6000) for i in range(6000)) + b"}\n")
w("cases.c", b"void f(void)\n{\nswitch (a) {\n" + b"".join(b"case %d: mutex_lock(l); break;\n" % i for i in range(6000)) + b"}\n}\n")
w("init.c", b"int x[] = {" + b"{1, 2}, " * 1500000 + b"};\n")
P
try() {
  out=$(/usr/bin/time -f '%x %U %e %M' -o t timeout 120 "$s" "$@" 2>err | wc -c)
  echo "$(tail -1 t) | out $out | $(head -1 err | cut -c1-90) | $*"
}
for f in *.c; do try --sp-file "$p/lock_unlock_exists.cocci" $f; done
for f in functions16.c one_function.c gotos.c cases.c init.c; do try --sp-file "$p/lock_unlock.cocci" $f; try --sp-file "$p/field.cocci" $f; try --sp-file "$p/inherited.cocci" $f; done
try --sp-file "$p/field.cocci" no_such.c; mkdir -p folder.c; try --sp-file "$p/field.cocci" folder.c; try --sp-file no_such.cocci empty.c; try --sp-file folder.c empty.c; rmdir folder.c
try --sp-file "$p/field.cocci" /dev/null; try --sp-file "$p/field.cocci" /dev/zero; try --sp-file empty.c empty.c; try --sp-file random.c empty.c; try --sp-file spaces16.c empty.c
try --sp-file "$p/field.cocci" /proc/self/mem
