#!/usr/bin/env python3
"""Lists functions of crates/*/src whose bodies are the same but for names and numbers.

Run at the top of the repository: python3 tools/twins.py [least number of tokens, 12 if left out]
"""
import glob
import re
import sys

LEAST = int(sys.argv[1]) if len(sys.argv) > 1 else 12
TOKEN = re.compile(r"[A-Za-z_][A-Za-z_0-9]*|[0-9][0-9_]*|\S")
KEYWORDS = set("as break const continue else false fn for if impl in let loop match mut return self Self true while None Some Ok Err".split())


def body_of(text, at):
    """The text between the brace at `at` and the one that closes it."""
    depth = 0
    for i in range(at, len(text)):
        if text[i] == "{":
            depth += 1
        elif text[i] == "}":
            depth -= 1
            if depth == 0:
                return text[at + 1 : i]
    return ""


def functions(text):
    """The names and bodies of the functions of a file. A body begins with a line that is an opening brace, or ends the line of the signature."""
    for found in re.finditer(r"^ *(?:pub(?:\(crate\))? )?fn (\w+)", text, re.M):
        rest = text[found.end() :]
        begin = re.search(r"^ *\{$|(?<=[^ ]) \{$", re.sub(r"(?m)^ *(requires|ensures).*$", lambda m: " " * len(m.group()), rest), re.M)
        if begin:
            yield found.group(1), body_of(text, found.end() + begin.end() - 1)


def shape(body):
    """The tokens with each name and number replaced by its place of first use."""
    seen = {}
    body = re.sub(r"//.*", "", body)
    return tuple(t if t in KEYWORDS or not re.match(r"\w", t) else seen.setdefault(t, "#%d" % len(seen)) for t in TOKEN.findall(body))


groups = {}
for path in sorted(glob.glob("crates/*/src/*.rt")):
    for name, body in functions(open(path).read()):
        s = shape(body)
        if len(s) >= LEAST:
            groups.setdefault(s, []).append("%s:%s" % (path[7:], name))
twins = [g for g in groups.values() if len(g) > 1]
for g in sorted(twins):
    print("  ".join(g))
print("%d groups, %d functions" % (len(twins), sum(len(g) for g in twins)))
