#!/usr/bin/env python3
"""Brings this repository's own definitions and lemmas to the kit's spelling: words in snake case.

usage: python3 tools/port_names.py [TOP]     once, right after /opt/rattle/port/port.py

Names of types, Rust functions, exported C names, strings and data keep their spelling. A definition named `result`
becomes `result_of`, since `result` is what a function returns, and the clauses that port.py left for that name lose
their binder. A lemma that would fall together with a definition gets `_lem`.
"""

import os
import re
import sys

TOKEN = re.compile(r"[^\W\d][\w'\-]*")
CAMEL = re.compile(r"[a-z][a-z0-9]*[A-Z]")
DECLARED = re.compile(r"(?m)^\s*(?:unfoldable |abbrev )*(?:pub )?([^\W\d][\w'\-]*) :")
# Named in text alone.
ALSO = {"blockBytes": "block_bytes", "schemaBytes": "schema_bytes", "sizeOf": "size_of", "getD": "get_or"}
# Lemmas that would have a definition's name: file, old, new.
APART = [
    ("crates/store_laws/proofs", "put_on", "put_on_lem"),
    ("crates/judge/proofs", "low_bit", "low_bit_lem"),
]
# Crates that cite the definition `result`, the last one in its proofs alone.
RESULT = ["pair_write", "pair_place", "bitmap_combine"]


def snake(word):
    return re.sub(r"(?<=[a-z0-9])([A-Z])", lambda m: "_" + m[1].lower(), word)


def files(top, *ends):
    for base in ("crates", "docs", "README.md"):
        place = os.path.join(top, base)
        if os.path.isfile(place):
            if place.endswith(ends):
                yield place
            continue
        for folder, dirs, names in os.walk(place):
            dirs[:] = sorted(d for d in dirs if d != "out")
            for name in sorted(names):
                if name.endswith(ends):
                    yield os.path.join(folder, name)


def read(path):
    with open(path, encoding="utf-8") as f:
        return f.read()


def write(path, text):
    with open(path, "w", encoding="utf-8") as f:
        f.write(text)


def camel_parts(top):
    """The camel-case parts of all names that the repository declares, each with its new spelling."""
    found = dict(ALSO)
    for path in files(top, ".antt"):
        for m in DECLARED.finditer(read(path)):
            for part in m[1].split("-"):
                if CAMEL.match(part):
                    found.setdefault(part, snake(part))
    return found


def renamed(text, parts):
    return TOKEN.sub(lambda m: "-".join(parts.get(p, p) for p in m[0].split("-")), text)


def word(text, old, new):
    return re.sub(r"(?<![\w'\-.])" + old + r"(?![\w'\-])", new, text)


def code_lines(text, mark, turn):
    return "\n".join(l if l.lstrip().startswith(mark) else turn(l) for l in text.split("\n"))


def without_binders(text):
    return re.sub(r"(?s)\bensures\* \{ λ r\. ⌜ (.*?) ⌝ \}", lambda m: "ensures { " + word(m[1], "r", "result") + " }", text)


def main(top):
    for folder, old, new in APART:
        for path in files(top, ".antt"):
            if os.path.relpath(path, top).startswith(folder):
                text = read(path)
                if re.search(r"(?m)^\s*(?:pub )?" + old + " :", text) or re.search(r"proofs[\w.]*\.\{[^}]*\b" + old + r"\b", text):
                    write(path, code_lines(text, "--", lambda l: word(l, old, new)))
    for crate in RESULT:
        for path in files(top, ".antt", ".rt"):
            if f"/crates/{crate}/" in path and (crate != "bitmap_combine" or path.endswith(".antt")):
                mark = "--" if path.endswith(".antt") else "//"
                text = code_lines(read(path), mark, lambda l: word(l, "result", "result_of"))
                write(path, without_binders(text))
    parts = camel_parts(top)
    for path in files(top, ".antt", ".rt", ".edit", ".md"):
        text = read(path)
        new = renamed(text, parts)
        if new != text:
            write(path, new)


if __name__ == "__main__":
    main(os.path.abspath(sys.argv[1] if len(sys.argv) > 1 else "."))
