"""C text cut as the project's pages say: pieces, visible tokens, items. Written for measuring, apart from the engine."""
import re

SPLICE = r"\\\r?\n"
KEYWORDS = set("""auto break case char const continue default do double else enum extern float for goto if inline int long
register restrict return short signed sizeof static struct switch typedef union unsigned void volatile while _Alignas _Alignof
_Atomic _Bool _Complex _Generic _Imaginary _Noreturn _Static_assert _Thread_local asm __asm __asm__""".split())
MARKERS = set("""__init __exit __initdata __exitdata __user __iomem __kernel __force __percpu __rcu __must_check __maybe_unused
__always_inline __read_mostly __packed __cold __weak noinline asmlinkage __inline __inline__ __extension__ __restrict
__restrict__""".split())
STR = r'(?:u8|[LuU])?"(?:[^"\\\n]|\\\r\n|\\[\s\S])*"'
CHAR = r"[LuU]?'(?:[^'\\\n]|\\\r\n|\\[\s\S])+'"
PUNCT = r"\.\.\.|<<=|>>=|->|\+\+|--|<<|>>|<=|>=|==|!=|&&|\|\||[-+*/%&^|]=|[][(){}.&*+~!/%<>^|?:;=,-]"
PIECE = re.compile(
    r"(?P<blank>(?:[ \t\v\f\r\n]|\\\r?\n)+)"
    r"|(?P<comment>/\*[\s\S]*?\*/|//(?:\\\r?\n|[^\n])*)"
    r"|(?P<str>" + STR + ")|(?P<char>" + CHAR + ")"
    r"|(?P<name>[A-Za-z_][A-Za-z_0-9]*)"
    r"|(?P<number>\.?[0-9](?:[eEpP][+-]|[A-Za-z_0-9.])*)"
    r"|(?P<line>\#)"
    r"|(?P<open>/\*[\s\S]*)"
    r"|(?P<quote>['\"](?:\\\r?\n|[^\n])*)"
    r"|(?P<punct>" + PUNCT + r")|(?P<stray>[\s\S])")
INLINE = re.compile(r"/\*[\s\S]*?(?:\*/|\Z)|//(?:\\\r?\n|[^\n])*|" + STR + "|" + CHAR + r"|['\"](?:\\\r?\n|[^\n])*|" + SPLICE + r"|[^\n]")


def pieces(text):
    """(kind, start, end) in order; text is a str of bytes (latin-1)."""
    at, n, out = 0, len(text), []
    while at < n:
        m = PIECE.match(text, at)
        kind, end = m.lastgroup, m.end()
        if kind == "line":
            while end < n and text[end] != "\n":
                end = INLINE.match(text, end).end()
        out.append((kind, at, end))
        at = end
    return out


def tokens(text):
    """The texts of all tokens, blanks and comments aside, a line counting as one token without its blanks."""
    out = []
    for kind, a, b in pieces(text):
        if kind in ("blank", "comment"):
            continue
        out.append(" ".join(text[a:b].split()) if kind == "line" else text[a:b])
    return out


WORDS = re.compile(r"/\*[\s\S]*?(?:\*/|\Z)|//[^\n]*|\\\r?\n|[A-Za-z_0-9]+|\S")


def visible(text):
    """(text, start, end) of the visible tokens."""
    shown, stack = [], []          # stack: [number of arm, visible arm]
    for kind, a, b in pieces(text):
        if kind in ("blank", "comment"):
            continue
        if kind == "line":
            words = [w for w in WORDS.findall(text[a + 1:b]) if not w.startswith(("/*", "//", "\\"))]
            first = words[0] if words else ""
            if first in ("if", "ifdef", "ifndef"):
                stack.append([0, 1 if words == ["if", "0"] else 0])
            elif first in ("elif", "else") and stack:
                stack[-1][0] += 1
            elif first == "endif" and stack:
                stack.pop()
            continue
        if all(arm == want for arm, want in stack):
            shown.append((text[a:b], a, b))
    out, i = [], 0
    while i < len(shown):
        t = shown[i][0]
        if t in MARKERS:
            i += 1
        elif t == "__attribute__":
            i += 1
            if i < len(shown) and shown[i][0] == "(":
                depth = 0
                while i < len(shown):
                    w = shown[i][0]
                    depth = depth + 1 if w in "([{" else max(0, depth - 1) if w in ")]}" else depth
                    i += 1
                    if depth == 0:
                        break
        else:
            out.append(shown[i])
            i += 1
    return out


def items(shown):
    """Spans [first, last) over the visible tokens."""
    out, first, depth, brace = [], 0, 0, None
    for i, (t, _, _) in enumerate(shown):
        end = False
        if t in ("(", "[", "{"):
            if t == "{" and depth == 0 and brace is None:
                brace = i
            depth += 1
        elif t in (")", "]", "}"):
            was, depth = depth, max(0, depth - 1)
            end = t == "}" and was == 1 and brace is not None and (brace == first or shown[brace - 1][0] == ")")
        elif t == ";":
            end = depth == 0
        if end:
            out.append((first, i + 1))
            first, brace = i + 1, None
    if first < len(shown):
        out.append((first, len(shown)))
    return out
