#!/usr/bin/env python3
"""Brings the names of specs/ and of the lemmas to one spelling, once, after the kit's port.py: words in snake case, types and modules in camel case.
It is run at the top of the repository and reads only its own files. Function names of src/, exported names, strings, inputs and outputs are left alone."""
import collections
import glob
import re
import sys

DECLARED = re.compile(r"^(\s*)((?:unfoldable |abbrev |pub )*)([^\s:({\[,.|]+)(?: \{[^}]*\})? : ")
TOKEN = re.compile(r"[^\s(){}\[\],;.|\"`]+")
CAMEL = re.compile(r"([a-z0-9'])([A-Z])")


def snake(name):
    """The name in snake case; a type's name, an operator and a name of the toolchain's stay."""
    if "◌" in name or not re.match(r"[a-zμ]", name):
        return name
    return CAMEL.sub(lambda m: m[1] + "_" + m[2].lower(), name).replace("-", "_")


def of_function(path):
    """A file of one function's proof: its answers are named by the toolchain."""
    return re.match(r"crates/[^/]+/proofs/.+/", path) is not None


files = sorted(glob.glob("crates/*/specs/**/*.antt", recursive=True) + glob.glob("crates/*/proofs/**/*.antt", recursive=True))
text = {f: open(f, encoding="utf-8").read() for f in files}

kinds = collections.defaultdict(set)
answers = collections.defaultdict(set)
fields = set()
for f in files:
    for line in text[f].split("\n"):
        m = DECLARED.match(line)
        if not m:
            continue
        if of_function(f) and re.search(r" : (?:\([^)]*\) → )?(tie\.(Need|invariant|decreases)|stated\.|statement )", line):
            answers[f].add(m[3])
            continue
        kinds[m[3]].add("definition" if "abbrev" in m[2] or "unfoldable" in m[2] else "lemma")
        if m[1]:
            fields.add(m[3])

# A lemma that would have a definition's name gets `_lem`.
taken = collections.defaultdict(set)
for name in kinds:
    taken[snake(name)].add(name)
new = {}
for spelled, names in taken.items():
    defined = {n for n in names if "definition" in kinds[n] and kinds[n] == {"definition"}}
    for n in names:
        new[n] = spelled
    if len(names) > 1:
        for n in names - defined:
            new[n] = spelled + "_lem"
        if len(defined) > 1 or len(names - defined) > 1:
            sys.exit(f"respell: these fall together: {sorted(names)}")
new = {a: b for a, b in new.items() if a != b}
if len(set(new.values())) != len(new):
    sys.exit("respell: two names fall together")

# What a file takes from elsewhere keeps its name there.
FOREIGN = re.compile(r"^use (?!Rattle\.(?:%s)\.)[^\n{]*\{([^}]*)\}" % "|".join(re.escape(c.split("/")[1]) for c in glob.glob("crates/*")), re.M)


def foreign(t):
    return {n.strip().split(" as ")[0].strip() for m in FOREIGN.finditer(t) for n in m[1].split(",")}


def comment_names(line):
    """In a comment a name is turned where it is quoted, or where its spelling shows that it is no plain word."""
    line = re.sub(r"`([^`]*)`", lambda m: "`" + TOKEN.sub(lambda k: new.get(k[0], k[0]), m[1]) + "`", line)
    return TOKEN.sub(lambda k: new.get(k[0], k[0]) if CAMEL.search(k[0]) else k[0], line)


def turned(path, t):
    keep = foreign(t) | answers[path]
    out = []
    for line in t.split("\n"):
        code, dash, comment = line, "", ""
        m = re.search(r"(?:^|\s)(--|//)(?=\s|$)", line)
        if m:
            code, comment = line[: m.start(1)], line[m.start(1):]

        def word(m):
            k = m[0]
            if k in keep or k not in new:
                return k
            if of_function(path) and m.start() and code[m.start() - 1] == "." and k not in fields:
                return k
            return new[k]

        out.append(TOKEN.sub(word, code) + comment_names(comment))
    return "\n".join(out)


def in_source(t):
    """A .rt file: names in `ghost use` lines and clauses, which alone have camel case beginning small, and in comments."""
    out = []
    for line in t.split("\n"):
        m = re.search(r"(?:^|\s)//(?=\s|$)", line)
        code, comment = (line[: m.start()], line[m.start():]) if m else (line, "")
        if re.match(r"\s*(ghost use|requires|ensures|ghost)\b", code) or CAMEL.search(code):
            code = TOKEN.sub(lambda k: new.get(k[0], k[0]), code)
            code = re.sub(r"(?<![\w.:])([a-z]+(?:[A-Z][a-z]+)+)\b", lambda k: snake(k[1]), code)
        out.append(code + comment_names(comment))
    return "\n".join(out)


for f in files:
    t = turned(f, text[f])
    clash = (foreign(text[f]) & set(new.values())) & {k for k in TOKEN.findall(t)} - foreign(t)
    if clash:
        sys.exit(f"respell: {f}: {sorted(clash)} is the library's too")
    if t != text[f]:
        open(f, "w", encoding="utf-8").write(t)

for f in sorted(glob.glob("crates/*/src/*.rt")):
    t = open(f, encoding="utf-8").read()
    u = in_source(t)
    if u != t:
        open(f, "w", encoding="utf-8").write(u)

# The pages, where a name is quoted: what they name may be the name before port.py.
known = set(new.values()) | {n for n in kinds if snake(n) == n}
for f in ["README.md"] + sorted(glob.glob("docs/*.md")) + sorted(glob.glob("docs/notes/*.md")) + ["compare/README.md"]:
    t = open(f, encoding="utf-8").read()
    u = re.sub(
        r"`([^`\n]*)`",
        lambda m: "`" + TOKEN.sub(lambda k: new.get(k[0]) or (snake(k[0]) if snake(k[0]) in known and k[0] not in kinds else k[0]), m[1].replace("′", "'")) + "`",
        t,
    )
    if u != t:
        open(f, "w", encoding="utf-8").write(u)
print(f"respell: {len(new)} names")
