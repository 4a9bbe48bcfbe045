#!/usr/bin/env python3
"""Brings the names of definitions and lemmas to today's spelling: words in snake case.

usage: python3 tools/respell.py        at the top of the repository, once, after the toolchain's port.py

A name in camel case that begins with a small letter (someBelow) becomes one in snake case (some_below), in crates/ (.antt, .rt,
.edit), and in the pages and comments that cite it. So does a record's field with dashes (mask-is), and each lemma of that name. Names
of types, of functions in src/ and of C exports are in their spelling already and stay. Where two names would fall together, TAKEN,
FIELDS and LEMMAS say what is written.
"""
import os
import re
import sys

IDENT = re.compile(r"[^\W\d][\w'-]*")
WORD = re.compile(r"(?<![\w'\\-])[a-z][a-z0-9]*(?:[A-Z][a-z0-9]*)+(?![\w'])")
# Pairs that would fall together: a definition beside a lemma, a field or a module of its name.
TAKEN = {"linesOk": "are_lines_ok", "nextPass": "next_pass_is"}
# A field that would have a definition's name.
FIELDS = {"is-on": "pixel_on", "fields-ok": "fields_are_ok", "first-text": "text_first"}
# A lemma that would have its definition's name.
LEMMAS = {"first_below": "first_below_lem", "is_digit": "is_digit_lem"}
LEMMA_FILES = {
    "first_below": ("crates/plane/proofs/Bounds.antt", "crates/bounds/proofs/Rows.antt"),
    "is_digit": ("crates/text/proofs/Decimal.antt",),
}


def snake(name):
    return TAKEN.get(name, re.sub(r"(?<=[a-z0-9])([A-Z])", lambda m: "_" + m.group(1).lower(), name))


def files(folder, ends):
    for at, dirs, names in os.walk(folder):
        dirs[:] = sorted(d for d in dirs if d not in ("out", "target", ".git"))
        for name in sorted(names):
            if name.endswith(ends):
                yield os.path.join(at, name)


def read(path):
    with open(path, encoding="utf-8") as f:
        return f.read()


def write(path, old, new):
    if new != old:
        with open(path, "w", encoding="utf-8") as f:
            f.write(new)


def definitions():
    """Names in camel case."""
    for name, paths in LEMMA_FILES.items():
        for path in paths:
            old = read(path)
            write(path, old, re.sub(r"(?<![\w.'-])" + name + r"(?![\w'-]|\.)", LEMMAS[name], old))
    names = set()
    for path in files("crates", (".antt",)):
        names |= set(WORD.findall(read(path)))
    for path in files("crates", (".antt", ".rt", ".edit")):
        old = read(path)
        write(path, old, WORD.sub(lambda m: snake(m.group()) if m.group() in names else m.group(), old))
    known = idents()
    for path in pages((".md", ".rs", ".h", ".py")):
        old = read(path)
        write(path, old, WORD.sub(lambda m: snake(m.group()) if m.group() in names or snake(m.group()) in known else m.group(), old))


def fields():
    """Fields of records: words joined by underscores, where port.py left some with dashes."""
    names = set()
    for path in files("crates", (".antt",)):
        text = read(path)
        for head in re.finditer(r"^( *)(?:pub )?record ", text, re.M):
            at = text.find("where\n", head.start())
            if at < 0 or "\n\n" in text[head.start() : at]:
                continue
            for line in text[at + len("where\n") :].split("\n"):
                if not line.startswith(head.group(1) + "  "):
                    break
                found = re.match(r" *(?:pub )?([^\W\d][\w'-]*) :", line)
                if found and "-" in found.group(1):
                    names.add(found.group(1))
    plain = lambda name: FIELDS.get(name, name.replace("-", "_"))
    for path in files("crates", (".antt", ".edit")):
        old = read(path)
        write(path, old, IDENT.sub(lambda m: plain(m.group()) if m.group() in names else m.group(), old))
    known = idents()
    for path in pages((".md",)):
        old = read(path)
        write(path, old, re.sub(r"`([a-z][\w'-]*-[\w'-]+)`", lambda m: turned(m.group(1), known), old))


def idents():
    known = set()
    for path in files("crates", (".antt",)):
        known |= set(IDENT.findall(read(path)))
    return known


def pages(ends):
    return ["README.md"] + [p for d in ("docs", "host", "include", "examples") for p in files(d, ends)]


def turned(name, known):
    """A name with dashes in a page: with underscores where only that form is left."""
    other = name.replace("-", "_")
    other = FIELDS.get(name, other)
    return "`" + (other if name not in known and other in known else name) + "`"



if __name__ == "__main__":
    if not os.path.isfile("crates.txt"):
        sys.exit("run it at the top of the repository")
    definitions()
    fields()
