#!/usr/bin/env python3
"""Brings the repository's own names of specs/ and proofs/ to the spelling of this Rattle: run once, at the top, after port.py.

A definition, lemma, field or constructor that is no type is written in snake case (`rowStart` and `row-start` are `row_start`), and a folder of
definitions like a module (`specs/inner` is `specs/Inner`). Names that std and Rattle itself give (`length-append`, `loop-i-init`) stay, and so do
strings. It ends without a change where two names of one crate's files would fall together, or one would hide an import."""
import glob
import os
import re
import subprocess
import sys

NAME = r"[^\s(){}\[\];,.\"`@]+"
DEFINED = re.compile(rf"^\s*(?:(?:pub|abbrev|unfoldable|syntax)\s+)*({NAME})((?:\s+{NAME})*)\s+:\s")
BOUND = re.compile(rf"[({{]\s*({NAME}(?:\s+{NAME})*)\s+:\s")
LIST = re.compile(r"\.\{([^}]*)\}")
# Lemmas that would have their function's name (`pair-of` is a lemma on `pairOf`), and one whose name port.py had turned.
LEMMAS = (
    "first-words in-parts verdict-of at-addr named-by both-in sign-beside zero-beside count-of bank-of bank-at answer-of part-told in-bank outcome-of "
    "first-bank pair-of"
).split()
TURNED = ["second_at"]
OWN = "Rattle." + "|Rattle.".join(re.findall(r"^(\w+)(?=[: ])", open("crates.txt").read(), re.M))


def snake(name):
    if name in TURNED:
        return name + "_lem"
    if name in LEMMAS:
        return name.replace("-", "_") + "_lem"
    name = name.replace("-", "_").replace("′", "'")
    return re.sub(r"(?<=[a-z0-9₂'])([A-Z])", lambda m: "_" + m[1].lower(), name)


def odd(name):
    return name not in TURNED and name[0].islower() and name != snake(name) and not re.search(r"[^\w'′-]", name)


def read(path):
    with open(path, encoding="utf-8") as f:
        return f.read()


def code(line):
    return re.split(r"(?:^|\s)--(?:\s|$)", line)[0]


def defined(text, walk):
    """The names that a file defines or binds; of a file on one function (walk) not its goals."""
    names = set()
    for line in map(code, text.splitlines()):
        if line.lstrip().startswith(("use ", "pub use ")):
            continue
        found = DEFINED.match(line)
        if found and not (walk and re.search(r": (tie|goal)\.", line)):
            names.add(found[1])
            names.update(found[2].split())
        for bound in BOUND.finditer(line):
            names.update(bound[1].split())
    return {n for n in names if odd(n)}


def foreign(text):
    """What a file imports from elsewhere than this repository, by its bare name."""
    names = set()
    for found in re.finditer(rf"^\s*(?:pub )?(?:ghost )?use ([^\s{{]+?)\.\{{([^}}]*)\}}", text, re.M):
        if not re.match(rf"({OWN})\b", found[1]):
            names.update(w.split(" as ")[-1].strip() for w in found[2].split(","))
    return names


antt = sorted(glob.glob("crates/*/specs/**/*.antt", recursive=True) + glob.glob("crates/*/proofs/**/*.antt", recursive=True))
walks = {p for p in antt if re.search(r"/proofs/.+/[^/]+\.antt$", p)}
own = set()
for p in antt:
    own |= defined(read(p), p in walks)
own |= set(TURNED)

# Names that fall together: two spellings of one name, or a name that a file has already.
together = {}
for n in own:
    together.setdefault(snake(n), set()).add(n)
clash = [f"{sorted(v)} are all {k}" for k, v in together.items() if len(v) > 1]
old = {p: read(p) for p in antt}
for p in antt:
    text = old[p]
    # a path of modules (`proofs.bank_view.Statement`) is no use of a name, nor is a field
    text = re.sub(r"^(\s*(?:pub )?use )[^\s{]+", r"\1", "\n".join(map(code, text.splitlines())), flags=re.M)
    words = set(re.findall(NAME, re.sub(rf"\.{NAME}", "", text)))
    out = foreign(old[p])
    for n in own & words:
        if n in out or snake(n) in TURNED:
            continue
        if snake(n) in words:
            clash.append(f"{p}: {n} and {snake(n)}")
if clash:
    print("\n".join(clash))
    sys.exit(1)


def turned(text, kept):
    def one(m):
        n = m[0]
        return snake(n) if n in own and n not in kept else n

    return re.sub(NAME, one, text)


def modules(text):
    return re.sub(r"\bspecs\.inner\b", "specs.Inner", text)


for p in antt:
    text = read(p)
    kept = foreign(text)
    new = modules("\n".join(turned(line, kept) for line in text.split("\n")))
    new = re.sub(r"^pub mod inner$", "pub mod Inner", new, flags=re.M)
    if new != text:
        open(p, "w", encoding="utf-8").write(new)
for p in glob.glob("crates/*/src/**/*.rt", recursive=True):
    text = read(p)
    kept = foreign(text)
    pieces = re.split(r'("(?:[^"\\\n]|\\.)*")', text)
    new = modules("".join(t if t.startswith('"') else turned(t, kept) for t in pieces))
    if new != text:
        open(p, "w", encoding="utf-8").write(new)
for p in glob.glob("crates/*/specs/inner") + glob.glob("crates/*/specs/inner.antt"):
    os.rename(p, p.replace("/inner", "/Inner"))
# The pages: names in backticks, before port.py's own respelling too.
now = {snake(n) for n in own} | {n for p in antt if os.path.exists(p) for n in re.findall(NAME, read(p))}
for p in ["README.md", *glob.glob("docs/*.md"), *glob.glob("docs/landings/*.md")]:
    text = read(p)
    new = re.sub(r"`[^`\n]+`", lambda m: re.sub(NAME, lambda t: snake(t[0]) if odd(t[0]) and snake(t[0]) in now and t[0] not in now else t[0], m[0]), text)
    new = new.replace("specs/inner", "specs/Inner")
    if new != text:
        open(p, "w", encoding="utf-8").write(new)
print(len(own), "names")
