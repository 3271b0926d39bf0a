"""Lists functions of src/ whose bodies are alike but for names, numbers and types: candidates for one generic function.

    python3 tools/twins.py [LINES]     bodies of at least so many lines, 4 if none are given
"""
import glob
import re
import sys
from collections import defaultdict

KEYWORDS = {"let", "mut", "if", "else", "match", "return", "while", "for", "in", "loop", "as", "break", "continue", "Some", "None", "Ok", "Err", "self"}


def bodies(text):
    """Each function's name and body, by its braces."""
    for m in re.finditer(r"^( *)(?:pub(?:\(crate\))? )?(?:extern \"C\" )?fn (\w+)", text, re.M):
        start = text.index("{\n", m.end())
        while text[start - 1] not in " \n":
            start = text.index("{\n", start + 1)
        yield m.group(2), text[start + 2 : text.index("\n%s}\n" % m.group(1), start) + 1]


def shape(body):
    words = re.findall(r"\w+|[^\w\s]", re.sub(r"//[^\n]*", "", body))
    return " ".join(w if w in KEYWORDS or not re.match(r"\w", w) else "x" for w in words)


least = int(sys.argv[1]) if len(sys.argv) > 1 else 4
groups = defaultdict(list)
for path in sorted(glob.glob("crates/*/src/*.rt")):
    for name, body in bodies(open(path).read()):
        if body.count("\n") >= least:
            groups[shape(body)].append("%s:%s" % (path.split("/")[1], name))
alike = [g for g in groups.values() if len(g) > 1]
for g in sorted(alike, key=len, reverse=True):
    print(len(g), " ".join(g))
print(len(alike), "groups,", sum(map(len, alike)), "functions")
