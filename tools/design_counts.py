#!/usr/bin/env python3
"""Counts, over the sources of all crates, the places that docs/DESIGN-PASS.md speaks of. Usage: tools/design_counts.py [-l]  (-l lists each place)"""
import collections
import glob
import os
import re
import sys

LIST = "-l" in sys.argv[1:]
os.chdir(os.path.join(os.path.dirname(os.path.abspath(__file__)), ".."))
FILES = {p: open(p, encoding="utf-8").read() for p in sorted(glob.glob("crates/*/src/**/*.rt", recursive=True))}


def strip(text):
    """The text without comments, each replaced by spaces."""
    return re.sub(r"//[^\n]*", lambda m: " " * len(m.group(0)), text)


def items(text, kind):
    """The items of a kind at column 0, with their bodies and lines."""
    for m in re.finditer(rf"^(?:pub )?{kind} (\w+)(<[^>]*>)? ?\{{(.*?)^\}}", text, re.M | re.S):
        yield m.group(1), m.group(3), text.count("\n", 0, m.start()) + 1


def functions(text):
    """Each function: its name, parameters, clauses before its body, body, line."""
    for m in re.finditer(r"^ *(?:pub )?(?:extern \"C\" )?fn (\w+)(?:<[^>]*>)?\((.*?)\)((?:(?!^ *\{$|\{$).)*?)^( *)\{\n(.*?)^\4\}", text, re.M | re.S):
        yield m.group(1), m.group(2), m.group(3), m.group(5), text.count("\n", 0, m.start()) + 1


def pairs(params):
    """The parameters, name and type."""
    return [tuple(x.strip().split(": ", 1)) for x in re.split(r",\s*(?![^<]*>)", params.strip().strip(",")) if ": " in x]


def conjuncts(clause):
    """The facts of a clause that are joined by ×, at the outer level, without a pair of parentheses around them."""
    parts, depth, last = [], 0, 0
    for i, c in enumerate(clause):
        depth += (c in "([{") - (c in ")]}")
        if c == "×" and depth == 0:
            parts.append(clause[last:i])
            last = i + 1
    parts.append(clause[last:])
    out = []
    for p in parts:
        p = " ".join(p.split())
        while p.startswith("(") and p.endswith(")") and p.count("(") == 1:
            p = p[1:-1]
        out.append(p)
    return [p for p in out if p]


def show(point, what, places):
    print(f"{point} {what}: {len(places)}")
    if LIST:
        for p in places:
            print("   ", p)


own, uses, loops, travel, facts, lengths, parallel, switches = [], [], [], collections.defaultdict(list), collections.defaultdict(list), [], [], []
for path, raw in FILES.items():
    text = strip(raw)
    for name, body, line in items(text, "enum"):
        if re.search(r"\b(Refused|CutShort|IllFormed|Bad|Fault|None)\b", body) and not re.search(r"= \d+,", body):
            own.append(f"{path}:{line} enum {name}")
    for name, body, line in items(text, "struct"):
        if re.search(r"\b(ok: bool|refused: u32|number: u32|found: u8|kind: u8|id: u8)", body):
            own.append(f"{path}:{line} struct {name}")
    for m in re.finditer(r"\w+::(Refused|CutShort|IllFormed|Bad|Fault)\b|\.(ok|refused)\b|\bRefused\(\d+\)", text):
        if not m.group(0).startswith(("Refusal::", "ReadFault::")):
            uses.append(f"{path}:{text.count(chr(10), 0, m.start()) + 1} {m.group(0)}")
    for i, l in enumerate(text.split("\n"), 1):
        if re.match(r"^\s*('\w+: )?(while|loop)\b", l):
            loops.append(f"{path}:{i} {l.strip()}")
        if re.search(r"\[[A-Za-z]+; \d+\],?$", l) and re.match(r"^    (pub )?\w+: ", l):
            parallel.append(f"{path}:{i} {l.strip()}")
        if re.match(r"^\s*match (o|tag|kind|operation|encoding|t)\b", l):
            switches.append(f"{path}:{i} {l.strip()}")
    crate = path.split("/")[1]
    for name, params, clauses, body, line in functions(text):
        ps = pairs(params)
        for n in (2, 3, 4):
            for i in range(len(ps) - n + 1):
                travel[(crate,) + tuple(ps[i:i + n])].append(f"{path}:{line} {name}")
        req = re.search(r"requires \{(.*?)\}\s*(?=requires|ensures|$)", clauses, re.S)
        if req:
            for c in conjuncts(req.group(1).strip()):
                facts[(crate, c)].append(f"{path}:{line} {name}")
        types = [t for _, t in ps]
        names = [n for n, _ in ps]
        for i, (n, t) in enumerate(ps):
            if t in ("&[u8]", "&[u32]", "&[u64]") and [x for x in ps[i + 1:i + 4] if x[0] in ("n", "m", "len", "count") and x[1] == "usize"]:
                lengths.append(f"{path}:{line} {name}({n}: {t}, ..)")
show("1", "own types in the shape of Option or Result, or numbers for kinds", own)
show("1", "uses of such a type", uses)
show("3", "loops that are no for", loops)
groups = {k: v for k, v in travel.items() if len(v) >= 3}
longest = [k for k in groups if not any(k != o and k[0] == o[0] and len(o) > len(k) and any(o[1:][i:i + len(k) - 1] == k[1:] for i in range(len(o))) and len(groups[o]) == len(groups[k]) for o in groups)]
show("5", "groups of parameters side by side in three or more functions of a crate", [f"{k[0]}: {', '.join(n + ': ' + t for n, t in k[1:])}: {len(groups[k])}" for k in sorted(longest)])
show("5", "facts in the requires of three or more functions of a crate", [f"{k[0]}: {k[1]}: {len(v)}" for k, v in sorted(facts.items()) if len(v) >= 3])
show("6", "slices with a length beside them", lengths)
show("6", "fields that are arrays of a fixed length", parallel)
show("7", "switches on which step to run", switches)
