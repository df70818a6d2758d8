#!/usr/bin/env python3
"""Turns a crate's old Proof.antt files, which name every goal, into Invariants.antt and Answers.antt.

usage: python3 tools/port_proofs.py NAMES CRATE [FUNCTION..]

NAMES is the names.json that `rt check --generated DIR --old-names` writes in the crate's folder; CRATE is that folder.
Answers that the check finds alone are left out; a file that walks the code by hand is left as it is.
"""

import json
import os
import re
import sys

SKIP = {"search rules", "omega arith", "search (rules)"}
START = {"args", "requires", "ranges", "well_formed", "lifetimes", "auto", "utf8", "type_inv"}


def norm(s):
    return s.replace("_", "-")


class Function:
    def __init__(self, of):
        self.places = {}
        for old, parent, step, callee, _ in of["places"]:
            self.places[norm(old)] = (norm(parent) if parent else None, norm(step[0]), step[1], callee)
        self.needs = {}
        typed = {norm(p[0]): dict((norm(s), v) for v, s in t) for p, t in zip(of["places"], of["typed"])}
        for (old, new), (place, _) in zip(of["needs"], of["asked_at"]):
            self.needs[norm(old)] = (new, norm(place), typed.get(norm(place), {}))
        self.all_typed = {}
        for t in typed.values():
            for s, v in t.items():
                self.all_typed.setdefault(s, v)
        self.arms = {norm(p[0]): a for p, a in zip(of["places"], of["arms"]) if a}
        self.renamed_args = {}
        for old, new in of["args"]:
            a, b = old.strip(".").split(" ."), new.strip(".").split(" .")
            self.renamed_args[tuple(norm(x) for x in a)] = b
        self.loops = []
        for ((old, new), variables), changed in zip(of["loops"], of["changed"]):
            self.loops.append((norm(old), new, variables, changed))
        self.params = of["params"]
        self.by_new = {norm(a): b for a, b in zip([p[0] for p in of["places"]], of["places_by_name"])}

    def need(self, name, decl):
        for key in (name, decl):
            for k in (key, re.sub(r"^(overflow|nonzero|offset-bounds|slice-bounds)-", "", key)):
                if k in self.needs:
                    return self.needs[k]
        return None

    def above(self, place):
        out = []
        while place is not None and place in self.places:
            out.append(place)
            place = self.places[place][0]
        return out

    def resolve(self, comps, place, typed):
        i = 0
        cur = place
        while i < len(comps) and comps[i] == "before":
            cur = self.places[cur][0] if cur in self.places and self.places[cur][0] else cur
            i += 1
        if i == len(comps):
            up = self.above(place)
            return ("place", ".before" * up.index(cur) if cur in up else "")
        field, rest = comps[i], comps[i + 1 :]
        field = {"type_size": "size-of"}.get(field, re.sub(r"_of_lem$", "-of", field))
        for k in (2, 1):
            if tuple(map(norm, comps[i : i + k])) in self.renamed_args:
                return ("path", ".".join(self.renamed_args[tuple(map(norm, comps[i : i + k]))] + comps[i + k :]))
        if field in START:
            head = field.replace("-", "_")
            return ("path", ".".join([head] + self.tail(head, rest)))
        for q in self.above(cur) + self.above(place):
            parent, old, new, callee = self.places[q]
            if old != norm(field).lower() and old != norm(field):
                continue
            if q in self.arms:
                step, _, fields = self.arms[q]
                fit = [(f, way) for f, was, way in fields if norm(was) == old and rest[: len(way)] == way and way]
                if fit:
                    f, way = max(fit, key=lambda it: len(it[1]))
                    return ("path", ".".join([step, f] + rest[len(way) :]))
                if old == "match":
                    continue
            if old in (set(typed) | set(self.all_typed)) and rest[:1] == ["given"]:
                var = typed.get(old) or self.all_typed[old]
                return ("path", ".".join(["type_inv", var] + rest[1:]))
            if rest[:1] == ["last"]:
                rest = ["new"] + rest[1:]
            if rest[:1] == ["kept"]:
                rest = ["auto"] + rest[1:]
            if rest[:1] in (["auto"], ["new"]) and callee and len(rest) > 1 and rest[1] in "01":
                k = sum(c == "1" for c in rest[1:])
                params = self.params.get(callee, [])
                if k < len(params) and "0" in rest:
                    return ("path", ".".join([new, rest[0], params[k]] + rest[rest.index("0") + 1 :]))
            return ("path", ".".join([new] + self.tail(new, rest)))
        return ("path", ".".join(comps[i:]))

    @staticmethod
    def tail(head, rest):
        out = []
        for k, c in enumerate(rest):
            if k == 0 and "-" in c and head in ("args",):
                c = c.replace("-", "_")
            out.append(c)
        return out


def blocks(text):
    """The file's comment lines at the top, its use lines, and its declarations."""
    lines = text.split("\n")
    head, uses, i = [], [], 0
    while i < len(lines) and (lines[i].startswith("--") or not lines[i].strip()):
        if lines[i].startswith("--"):
            head.append(lines[i])
        i += 1
    while i < len(lines) and (lines[i].startswith(("use ", "infix")) or not lines[i].strip()):
        if lines[i].strip():
            uses.append(lines[i])
        i += 1
    out, cur = [], []
    for l in lines[i:]:
        starts = l and not l[0].isspace() and l[0] not in ")]"
        if l.strip() == "" and cur:
            cur.append(l)
        elif starts and cur and cur[-1] == "":
            out.append("\n".join(cur).rstrip())
            cur = [l]
        else:
            cur.append(l)
    if cur:
        out.append("\n".join(cur).rstrip())
    return head, uses, [b for b in out if b.strip()]


used = set()


def turn_paths(text, var, fn, place, typed):
    """Paths from the record named var, at the place where the goal is asked. A name of a step is written out."""
    let = re.compile(r"let ([\w'-]+) =\s+(" + re.escape(var) + r"(?:\.[\w'-]+)+)\s+in\s+")
    while m := let.search(text):
        end = scope_end(text, m.end())
        inside = re.sub(r"(?<![\w'.\-])" + re.escape(m[1]) + r"(?![\w'\-])", lambda _: m[2], text[m.end() : end])
        text = text[: m.start()] + inside + text[end:]

    def one(m):
        kind, it = fn.resolve(m[1][1:].split("."), place, typed)
        return var + ("." + it if kind == "path" else it)

    text = re.sub(r"(?<![\w'.\-])" + re.escape(var) + r"((?:\.[\w'\-]+)+)", one, text)
    # the two branches of an if
    def joined(m):
        tail = m["step"][3:]
        used.update((f"then-{tail}", f"else-{tail}"))
        arms = []
        for way, say, arm, w in (("then", "true", m["a"], m["v"]), ("else", "false", m["b"], m["u"])):
            arm = re.sub(r"(?<![\w.])" + w + r"(?:\.0)?\.(?:taken|left)\b", f"{w}.{m['step']}.{say}", arm)
            arm = re.sub(r"omega \(arith, " + w + r"\)", "omega arith", arm)
            arms.append(f"{way}-{tail} {w} ↦ {arm.strip()}")
        return f"elim {var}.{m['step']}.branch [\n      {arms[0]}\n    | {arms[1]}\n    ]"

    deep = r"(?:[^()]|\((?:[^()]|\((?:[^()]|\((?:[^()]|\([^()]*\))*\))*\))*\))*"
    text = re.sub(r"⊎_elim\s+\(λ (?P<v>\w+)\. (?P<a>" + deep + r")\)\s+\(λ (?P<u>\w+)\. (?P<b>" + deep + r")\)\s+" + re.escape(var) + r"\.(?P<step>if-[\w'-]+)\.branch", joined, text)
    text = re.sub(r"(" + re.escape(var) + r"\.(?:if|[\w-]*test)[\w'-]*|" + re.escape(var) + r"\.[\w'-]+-test)\.(taken|left)\b", lambda m: m[1] + (".true" if m[2] == "taken" else ".false"), text)
    # a test of a negation says what it negates
    return re.sub(r"not-(?:true|false)\s+(?:\([^()]*\)|[\w.'-]+)\s+(\([^()]*\)|[\w.'-]+)", r"\1", text)


def scope_end(text, i):
    """Where the parenthesis around the binder at i closes."""
    deep = 0
    for k in range(i, len(text)):
        deep += (text[k] in "([{") - (text[k] in ")]}")
        if deep < 0:
            return k
    return len(text)


def substitute(text, table):
    """Each name of the table replaced, but where a binder of that name hides it."""
    hidden = []
    for m in re.finditer(r"λ ([^.()]+)\.|λ \((\S+) :[^)]*\)\.|\(([^():]+) : [^()]*\) →", text):
        names = (m[1] or m[2] or m[3]).split()
        hidden += [(n, m.start(), scope_end(text, m.end())) for n in names if n in table]

    def one(m):
        if any(n == m[0] and a <= m.start() < b for n, a, b in hidden):
            return m[0]
        return table.get(m[0], m[0])

    table.update({n.strip("«»"): v for n, v in table.items() if n.startswith("«")})
    text = re.sub(r"«([^»]*)»", lambda m: m[1] if m[1] in table else m[0], text)
    return re.sub(r"(?<![\w'.\-])[^\W\d][\w'₀-₉\-]*(?![\w'])", one, text)


def turn(path, fn, module, name):
    text = open(path, encoding="utf-8").read()
    if "tie.spec" not in text or "As tie" in text:
        return None
    text = re.sub(r"\.inv(?![\w'-])", ".invariant", text)
    text = re.sub(r"\.ptr(?![\w'-])", ".ref_ptr", text)
    for word in ("type-inv", "well-formed"):
        text = text.replace("." + word, "." + norm(word).replace("-", "_"))
    head, uses, decls = blocks(text)
    uses = [u for u in uses if not re.search(r"\.(Statement\.\{statement\}|Tie as tie)\s*$", u)]
    invariants, answers, lemmas = [], [], []
    used.clear()
    # answers that another declaration cites keep standing, under their new names
    new_names = {}
    for d in decls:
        m = re.match(r"^(?:--[^\n]*\n)*(?:pub )?([\w'-]+) :\s*tie\.Need-([\w'-]+)", d)
        if m and fn.need(norm(m[2]), norm(m[1])):
            new_names[m[1]] = fn.need(norm(m[2]), norm(m[1]))[0]
    token = r"(?<![\w'.\-])%s(?![\w'\-])"
    bodies = [d for d in decls if not re.match(r"^pub [\w'\-]+ : \{M", d)]
    cited = {n for n in new_names if any(len(re.findall(token % re.escape(n), re.sub(r"--[^\n]*", "", d))) > (2 if re.match(r"^(?:--[^\n]*\n)*(?:pub )?" + re.escape(n) + r" :", d) else 0) for d in bodies)}

    def renamed(text):
        for n in cited:
            text = re.sub(token % re.escape(n), new_names[n], text)
        return text
    for d in decls:
        body_lines = d.split("\n")
        comments = []
        while body_lines and body_lines[0].startswith("--"):
            comments.append(body_lines.pop(0))
        if not body_lines:
            lemmas.append(d)
            continue
        sig = body_lines[0]
        if re.match(r"^pub [\w'\-]+ : \{M", sig):
            continue
        m = re.match(r"^abbrev (?:pub )?([\w'-]+) : tie\.(?:invariant|decreases)-([\w'-]+)\s*$", sig)
        if m:
            which = "invariant" if ": tie.invariant" in sig else "decreases"
            old_loop = norm(m[2])
            it = [l for l in fn.loops if l[0] == old_loop]
            if not it:
                print(f"{name}: no loop {old_loop} among {[l[0] for l in fn.loops]}")
                continue
            _, new, variables, changed = it[0]
            eq = "\n".join(l for l in body_lines[1:] if not l.startswith("unfolding"))
            unf = [l for l in body_lines[1:] if l.startswith("unfolding")]
            lhs, _, rhs = eq.partition("=")
            params = lhs.split()[1:]
            table = {}
            for v, c, p in zip(variables, changed, params):
                table[p] = f"l.initial.{v}" if c else f"l.{v}"
            later = [v for v, c in zip(variables, changed) if c]
            for v, p in zip(later, params[len(variables) :]):
                table[p] = f"l.{v}"
            if len(params) != len(variables) + len(later):
                print(f"{name}: {m[1]} has {len(params)} parameters, {len(variables)} + {len(later)} variables")
            table.pop("_", None)
            rhs = substitute(rhs, table)
            invariants.append("\n".join(comments + [f"abbrev pub {which}-{new} : goal.{which}-{new}"] + unf + [f"{which}-{new} l ={rhs}"]))
            continue
        m = re.match(r"^(?:pub )?([\w'-]+) :\s*tie\.Need-([\w'-]+)", " ".join(body_lines[:3]))
        if m and ("tie.Need-" in sig or sig.rstrip().endswith(":")):
            need = fn.need(norm(m[2]), norm(m[1]))
            if need is None:
                continue
            new, place, typed = need
            if new.startswith(("enum_known", "enum_told")):
                continue
            k = 0
            while k < len(body_lines) and not re.match(r"^(unfolding\b|" + re.escape(m[1]) + r"(\s|$))", body_lines[k]) or k == 0:
                k += 1
            unf = [l for l in body_lines[k:] if l.startswith("unfolding")]
            eq = "\n".join(l for l in body_lines[k:] if not l.startswith("unfolding"))
            lhs, _, rhs = eq.partition("=")
            args = lhs.split()[1:]
            if not args:
                continue
            rhs = renamed(turn_paths(rhs, args[0], fn, place, typed))
            if rhs.strip() in SKIP and not unf and m[1] not in cited:
                continue
            answers.append("\n".join(comments + [f"pub {new} : goal.{new}"] + unf + [f"{new} {args[0]} ={rhs}"]))
            continue
        if "tie." in d:
            m = re.search(r"\((\w+) : tie\.([\w'-]+)[^)]*\)", d)
            if m:
                place = norm(m[2])
                d = d.replace(m[0], f"({m[1]} : goal.{fn.by_new.get(place, m[2])})")
                d = turn_paths(d, m[1], fn, place, {})
            d = re.sub(r"tie\.Need-([\w'-]+)( invariant-[\w-]+ decreases-[\w-]+)*", lambda m: "goal." + ((fn.need(norm(m[1]), "") or (m[1],))[0]), d)
        lemmas.append(renamed(d))
    base = os.path.dirname(path)
    def out(file, kind, parts):
        if not parts:
            return
        lines = head + uses + [f"use {module}.{kind} as goal"]
        if kind == "Goals" and used:
            lines.append(f"use {module}.{kind}.{{{', '.join(sorted(used, reverse=True))}}}")
        with open(os.path.join(base, file), "w", encoding="utf-8") as f:
            f.write("\n".join(lines) + "\n\n" + "\n\n".join(parts) + "\n")
    out("Invariants.antt", "Given", invariants)
    out("Answers.antt", "Goals", (lemmas + answers) if answers else [])
    os.remove(path)
    return len(answers)


def main(names, crate, only):
    crate = crate.rstrip("/")
    lib = os.path.basename(os.path.abspath(crate))
    told = json.load(open(names))
    for key, of in told.items():
        m = re.match(r"Rattle-" + re.escape(lib) + r"-proofs\.(.*)\.Lts", key)
        if not m:
            continue
        place = m[1]
        if only and place not in only:
            continue
        path = os.path.join(crate, "proofs", *place.split("."), "Proof.antt")
        if not os.path.exists(path):
            continue
        n = turn(path, Function(of), f"Rattle.{lib}.proofs.{place}", place)
        print(f"{place}: {'by hand' if n is None else str(n) + ' answers'}")


if __name__ == "__main__":
    main(sys.argv[1], sys.argv[2], sys.argv[3:])
