#!/usr/bin/env python3
"""Brings the repository's own definitions and lemmas to snake case: each word of a name that was written as `halfUp` becomes `half_up`.

usage: python3 tools/respell.py [--check]     at the top of the repository

It reads specs/, proofs/ and src/ of every crate and their must-fail edits, and the names in backticks of README.md, docs/ and tool/.
A word that begins with a capital names a type or a module and stays, and so does a name of the toolchain's own. With --check it writes nothing
and lists names that would fall together in one file.
"""
import os
import re
import sys

# the toolchain's own words, which no file of the repository declares
KEPT = {"getD", "shr_slice_Lawful", "shr_slice_Tells", "uint_Makes", "uint_Tells", "walk_Meets", "after_List"}
TOKEN = re.compile(r"(?<![A-Za-z0-9_'.\-])[A-Za-z_][A-Za-z0-9_']*(?:-[A-Za-z0-9_'₀-₉]+)*|(?<=\.)[a-z][A-Za-z0-9_']*(?:-[A-Za-z0-9_']+)*")
# a lemma that would have its function's name
LEMMAS = {("crates/book/proofs/HeaderBlock.antt", "header_of"): "header_of_lem", ("crates/book/proofs/Canonical.antt", "header_of"): "header_of_lem"}
CAMEL = re.compile(r"[a-z][a-z0-9_]*(?:[A-Z][a-z0-9_']*)+\Z")


def snake(word):
    return re.sub(r"(?<=[a-z0-9])([A-Z])", lambda m: "_" + m[1].lower(), word)


def respelled(name):
    if name in KEPT:
        return name
    return "-".join(snake(w) if CAMEL.match(w) and not re.search(r"_[A-Z]", w) else w for w in name.split("-"))


def files():
    for folder, dirs, names in os.walk("crates"):
        dirs[:] = sorted(d for d in dirs if d != "out")
        for n in sorted(names):
            if n.endswith((".antt", ".rt", ".edit")):
                yield os.path.join(folder, n)


def pages():
    yield "README.md"
    for top in ("docs", "tool", "host", "fuzz"):
        for folder, dirs, names in os.walk(top):
            dirs[:] = sorted(d for d in dirs if d != "target")
            for n in sorted(names):
                if n.endswith(".md"):
                    yield os.path.join(folder, n)


def read(path):
    with open(path, encoding="utf-8") as f:
        return f.read()


def write(path, text):
    with open(path, "w", encoding="utf-8") as f:
        f.write(text)


def main(argv):
    check = argv[:1] == ["--check"]
    renamed = {}
    for path in files():
        text = read(path)
        text = TOKEN.sub(lambda m: LEMMAS.get((path, m[0]), m[0]), text)
        tokens = {m[0] for m in TOKEN.finditer(text)}
        for t in tokens:
            new = respelled(t)
            if new != t:
                renamed[t] = new
                if new in tokens:
                    print(f"{path}: `{t}` and `{new}` fall together")
        if not check:
            write(path, TOKEN.sub(lambda m: respelled(m[0]), text))
    for path in pages():
        text = read(path)
        new = re.sub(r"`[^`\n]+`", lambda s: TOKEN.sub(lambda m: renamed.get(m[0], m[0]), s[0]), text)
        if not check and new != text:
            write(path, new)
    print(f"{len(renamed)} names respelled" if not check else f"{len(renamed)} names to respell")


if __name__ == "__main__":
    main(sys.argv[1:])
