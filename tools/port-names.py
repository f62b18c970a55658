#!/usr/bin/env python3
"""Brings this repository's own definitions and lemmas to the spelling of today's Rattle: words in snake case.

usage: tools/port-names.py [FOLDER]     run once, at the top of the repository, right after the kit's port.py

A name that the repository declares itself (in specs/ and proofs/, and the statement of a proof file) loses its dashes
and its inner capitals: `tick-refused` becomes `tick_refused`, `clockOutcome` becomes `clock_outcome`. Where that
would fall together with another of its names, the lemma gets `_lem`. Types and modules keep their capitals; names of
Rattle code, of the library and the ones that Rattle makes keep their spelling. It goes over specs, proofs and sources,
the must-fail edits, and, between backticks, comments and pages. Two crates that are named as libraries of the kit get
other names.
"""

import collections
import os
import re
import sys

NAME = r"[^\s(){}\[\].,;:\"`λ]+"
SIGNATURE = re.compile(r"^\s*(?:(?:abbrev|unfoldable|pub) )*(" + NAME + r") :(?: |$)")
COMMENT = re.compile(r"^\s*(--|//)")
GHOST = re.compile(r"\b(requires|ensures|ghost)\b")
# Where a definition's name falls together with a lemma that port.py left without a dash, the lemma gives way; the test
# `inMap` falls together with a field of InRange.
TOGETHER = {"inMap": "is_in_map"}
# crates that are named as libraries of the kit, and their new names
CRATES = {"hex": "hex_digits", "log": "port_log"}
GIVES_WAY = ("by_lines", "no_register", "no_access", "no_index")


def walk(root, kinds, below=("crates",)):
    for top in below:
        for folder, dirs, files in os.walk(os.path.join(root, top)):
            dirs[:] = sorted(d for d in dirs if d not in ("out", "target", ".git"))
            for f in sorted(files):
                if f.endswith(kinds):
                    yield os.path.join(folder, f)


def own_file(path):
    """A file whose declarations are the repository's own names; a proof file of one function has made names too."""
    return "/specs/" in path or re.search(r"/proofs/[^/]+\.antt$", path)


def snake(name):
    name = name.replace("-", "_").replace("′", "'")
    return re.sub(r"(?<=[a-z0-9])([A-Z])", lambda m: "_" + m.group(1).lower(), name)


def wants(name):
    if "◌" in name or re.match(r"[A-Z_]", name):
        return False
    return snake(name) != name


def declared(root):
    """The repository's own names, and which of them are fields of records."""
    own, fields = set(), set()
    for p in walk(root, ".antt"):
        in_record = False
        with open(p, encoding="utf-8") as f:
            for line in f:
                if re.match(r"\S", line):
                    in_record = re.match(r"(pub )?record ", line)
                m = SIGNATURE.match(line)
                if not m or COMMENT.match(line):
                    continue
                name = m.group(1)
                if own_file(p) or name.endswith("-spec"):
                    own.add(name)
                    if in_record:
                        fields.add(name)
    return own, fields


def renames(own):
    to = {name: name + "_lem" for name in GIVES_WAY if name in own}
    taken = (set(own) | set(to.values())) - set(to)
    for name in sorted(own, key=lambda name: ("-" in name, name)):  # definitions first
        if not wants(name):
            continue
        new = TOGETHER.get(name, snake(name))
        if new in taken:
            new += "_lem"
        if new in taken:
            sys.exit(f"port-names: {name} and another name would both be {new}")
        taken.add(new)
        to[name] = new
    return to | {None: taken}


TOKEN = re.compile(NAME)


def turn_line(line, to):
    return TOKEN.sub(lambda m: to.get(m.group(0), m.group(0)), line)


def turn_code(text, to, made):
    """Everything but comments. In a proof file of one function `made` are the fields: what else stands behind a dot there
    is a name that Rattle made."""
    out = []

    def turned(m):
        dotted = code[: m.start()].endswith(".")
        return m.group(0) if dotted and m.group(0) not in made else to.get(m.group(0), m.group(0))

    for line in text.split("\n"):
        code, mark, rest = line, "", ""
        m = re.search(r"(^|\s)(--|//)(\s|$)", line)
        if m:
            code, rest = line[: m.start()], line[m.start() :]
        code = turn_line(code, to) if made is None else TOKEN.sub(turned, code)
        out.append(code + turn_page(rest, to))
    return "\n".join(out)


def own_word(word, to):
    """Also a name of ours whose dash port.py took, since the library had the same."""
    return to[word] if word in to else snake(word) if wants(word) and snake(word) in to[None] else word


def turn_page(text, to):
    """A comment or a page: what stands between backticks, and elsewhere a name with a capital inside."""
    text = re.sub(r"`[^`\n]+`", lambda m: TOKEN.sub(lambda n: own_word(n.group(0), to), m.group(0)), text)
    return TOKEN.sub(lambda m: to.get(m.group(0), m.group(0)) if re.match(r"[a-z]+[A-Z]", m.group(0)) else m.group(0), text)


def turn_source(text, to):
    """Rust strings keep their text; no code outside clauses has a dash or a capital inside a word."""
    parts = re.split(r'(b?"(?:[^"\\]|\\.)*")', text)
    return "".join(p if i % 2 else turn_code(p, to, None) for i, p in enumerate(parts))


def main(root):
    own, fields = declared(root)
    to = renames(own)
    files = [*walk(root, (".antt", ".rt", ".edit", ".md"), ("crates", "docs")), os.path.join(root, "README.md")]
    n = sum(turn_file(p, to, fields) for p in files)
    rename_crates(root)
    print(f"port-names: {len(to) - 1} names, {n} files")


def rename_crates(root):
    words = "|".join(CRATES)

    def renamed(pattern, text):
        return re.sub(pattern, lambda m: CRATES[m.group(0)], text)

    def turn(path, pattern):
        with open(path, encoding="utf-8") as f:
            text = f.read()
        with open(path, "w", encoding="utf-8") as f:
            f.write(renamed(pattern, text))

    for old, new in CRATES.items():
        os.rename(os.path.join(root, "crates", old), os.path.join(root, "crates", new))
    turn(os.path.join(root, "crates.txt"), rf"(?m)(?<![\w#])(?<!# )\b({words})\b(?=:| |$)")
    for p in walk(root, (".rt", ".antt", ".edit")):
        turn(p, rf"(?<=\bRattle\.)({words})(?=\.)|(?<![\w.:])({words})(?=::)")
    for p in [*walk(root, ".md", ("docs",)), os.path.join(root, "README.md")]:
        turn(p, rf"(?<=`)({words})(?=[`/])|(?<=crates/)({words})(?=/)")


def turn_file(p, to, fields):
    with open(p, encoding="utf-8") as f:
        text = f.read()
    if p.endswith(".antt"):
        new = turn_code(text, to, None if own_file(p) else fields)
    elif p.endswith(".rt"):
        new = turn_source(text, to)
    elif p.endswith(".edit"):
        new = turn_edit(text, to)
    else:
        new = turn_page(text, to)
    if new == text:
        return 0
    with open(p, "w", encoding="utf-8") as f:
        f.write(new)
    return 1


def turn_edit(text, to):
    return "\n".join(turn_source(l, to) if l.startswith(("old: ", "new: ")) else l for l in text.split("\n"))


if __name__ == "__main__":
    main(sys.argv[1] if len(sys.argv) > 1 else ".")
