#!/usr/bin/env python3
"""Brings the repository's own names to today's spelling: definitions, fields and lemmas in snake case.

usage: python3 tools/port_names.py          at the top, once, on what port.py left
       python3 tools/port_names.py pages    then: the same names in edits, README and docs

A name in camel case that begins with a small letter becomes snake case, and so does a lemma or a field with dashes.
Where a lemma would get the name of a definition or of a function, it gets `_lem`. Functions, strings, types and modules
keep their names. The names are read off specs/ and proofs/; the table is kept in tools/port_names.tsv for the pages.
"""
import collections
import os
import re
import sys

TABLE = os.path.join(os.path.dirname(os.path.abspath(__file__)), "port_names.tsv")
BY_KIT = os.path.join(os.path.dirname(os.path.abspath(__file__)), "port_names_by_kit.txt")
WORD = r"[A-Za-z_∷][\w'₀-₉]*(?:-[\w'₀-₉]+)*"
TOKEN = re.compile(r"(?<![\w'-])" + WORD + r"(?![\w'-])")
CAMEL = re.compile(r"^[a-z][^A-Z]*[a-z0-9'][A-Z]|^[a-z][A-Z]")
# A field and a parameter named as a tactic of antt's is now: `ground` is `grounded`.
GROUND = re.compile(r"(?<![\w'-])ground(?![\w'-])")


def texts(*endings):
    for folder, dirs, files in os.walk("crates"):
        dirs[:] = sorted(d for d in dirs if d != "out")
        for name in sorted(files):
            if name.endswith(endings):
                yield os.path.join(folder, name)


def read(path):
    with open(path, encoding="utf-8") as f:
        return f.read()


def snake(name):
    if name == "noLF":
        return "no_lf"
    return re.sub(r"([a-z0-9'])([A-Z])", lambda m: m.group(1) + "_" + m.group(2).lower(), name)


def of_function(path):
    """Whether a file is a proof of one function: its names are the check's."""
    parts = path.split(os.sep)
    return parts[2] == "proofs" and len(parts) > 4


def declared():
    """Names that specs/ and lemma files declare: at the left (top) and indented (fields, constructors)."""
    top, inner = set(), set()
    head = r"((?:(?:abbrev|unfoldable|pub|data|record|ruleset)\s+)*)([^\s(){}:;,=.]+)( [({].*)?\s*:(?!=)"
    for path in texts(".antt"):
        if of_function(path):
            continue
        for line in read(path).split("\n"):
            m = re.match("^" + head, line)
            if m:
                top.add(m.group(2))
            m = re.match("^ +" + head, line)
            if m:
                inner.add(m.group(2))
    return top, inner


def brought():
    """Names that a file imports from a library: they stay."""
    crates = set(os.listdir("crates"))
    names = set()
    for path in texts(".antt", ".rt"):
        for module, list_ in re.findall(r"use ([^\s;{]+)\.\{([^}]*)\}", read(path)):
            parts = module.split(".")
            if not (parts[0] == "Rattle" and len(parts) > 1 and parts[1] in crates):
                names.update(re.split(r"\s+as\s+", n.strip())[0] for n in list_.split(","))
    return names


def table():
    top, inner = declared()
    kept = brought()
    top, inner = top - kept, inner - kept
    words = collections.Counter()
    for path in texts(".antt", ".rt"):
        words.update(TOKEN.findall(read(path)))
    named, taken = {}, set(words)
    for name in sorted(top | inner):
        if CAMEL.match(name):
            named[name] = snake(name)
    # A lemma in snake case already that a definition now meets.
    lemmas = sorted(n for n in top if n in set(named.values()))
    made = set(named.values())
    for name in sorted(top | inner):
        if "-" in name and re.match(r"^[a-z_]", name) and not CAMEL.match(name):
            new = name.replace("-", "_")
            named[name] = new + "_lem" if new in taken or new in made else new
    return named, lemmas


def respell(text, named):
    def put(m):
        word = m.group(0)
        if word not in named:
            return word
        before = text[: m.start()]
        if "-" in word and before.endswith("."):
            owner = re.search(r"([\w'-]+)\.$", before)
            if owner and not owner.group(1)[0].isupper() and word not in FIELDS:
                return word
        return named[word]

    return TOKEN.sub(put, text)


FIELDS = set()


def turn():
    global FIELDS
    named, lemmas = table()
    top, inner = declared()
    FIELDS = {n for n in inner if "-" in n}
    homes = {}
    for path in texts(".antt"):
        if of_function(path):
            continue
        for line in read(path).split("\n"):
            m = re.match(r"^(?:(?:abbrev|unfoldable|pub)\s+)*([^\s(){}:;,=]+)( [({].*)?\s*:(?!=)", line)
            if m and m.group(1) in lemmas:
                homes.setdefault(m.group(1), []).append(path)
    said = []
    for path in texts(".antt", ".rt"):
        old = text = read(path)
        if path.endswith(".antt"):
            for lemma, places in homes.items():
                modules = ["Rattle." + p[len("crates/"):-len(".antt")].replace("/", ".") for p in places]
                brought = any(re.search(re.escape(m) + r"\.\{[^}]*(?<![\w'-])" + re.escape(lemma) + r"(?![\w'-])", text) for m in modules)
                if path in places or brought:
                    text = re.sub(r"(?<![\w'.-])" + re.escape(lemma) + r"(?![\w'-])", lemma + "_lem", text)
                    said.append((path, lemma))
            text = respell(text, named)
        else:
            # In code only clauses have such names; strings are in quotes and have none.
            text = respell(text, {k: v for k, v in named.items() if "-" not in k})
        text = "\n".join(line if line.lstrip().startswith(("--", "//")) else GROUND.sub("grounded", line) for line in text.split("\n"))
        if text != old:
            with open(path, "w", encoding="utf-8") as f:
                f.write(text)
    with open(TABLE, "w", encoding="utf-8") as f:
        for name in sorted(named):
            f.write(f"{name}\t{named[name]}\n")
    for path, lemma in said:
        print(f"look: {path}: the lemma {lemma} is {lemma}_lem now")
    print(f"{len(named)} names")


def pages():
    # What port.py itself renamed, as it said, and what this script did.
    named = {n: snake(n).replace("-", "_") for n in read(BY_KIT).split()}
    named.update(line.rstrip("\n").split("\t") for line in open(TABLE, encoding="utf-8"))
    paths = [p for p in texts(".edit")] + ["README.md"]
    for root in ("edits", "docs"):
        for folder, dirs, files in os.walk(root):
            paths += [os.path.join(folder, f) for f in sorted(files) if f.endswith((".edit", ".md"))]
    for path in paths:
        if path.endswith(("PORT.md", "PORT-OTHER.md")):
            continue
        old = read(path)
        text = respell(old, named)
        if text != old:
            with open(path, "w", encoding="utf-8") as f:
                f.write(text)


if __name__ == "__main__":
    pages() if sys.argv[1:] == ["pages"] else turn()
