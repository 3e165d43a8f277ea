#!/usr/bin/env python3
"""Turns a function's Proof.antt, which answered the older Rattle's parts one by one, into Invariants.antt and Answers.antt.

usage: tools/convert_proofs.py CRATE NAMES.JSON     at the top of the repository

NAMES.JSON is what `rattle check --generated DIR --old-names` writes for the crate. An answer that only searched is left out: the check
searches by itself. What could not be turned is said in lines that begin with 'look:'. A Proof.antt that is no list of such answers stays.
"""
import json
import os
import re
import sys

IDENT = r"[A-Za-z_][\w'₀₁₂₃₄₅₆₇₈₉-]*"
PATH = re.compile(rf"(?<![\w.'₀₁₂₃₄₅₆₇₈₉-])({IDENT})((?:\.[\w'₀₁₂₃₄₅₆₇₈₉+-]+)*)")
MADE = re.compile(r"\.(Statement|Tie|Reads|Lts)\b")


def alike(a):
    a = a.replace("-", "_").lower()
    a = {"pgn_of_content": "pgn_of", "service_of_content": "service_of"}.get(a, a)
    return re.sub(r"_lem(?=\d*$)", "", a)


class Function:
    def __init__(self, names, said):
        self.n, self.said = names, said
        self.index = {}
        for i, place in enumerate(names["places"]):
            self.index.setdefault(place[0], i)

    def parent(self, i):
        above = self.n["places"][i][1]
        return i if above is None else self.index[above]

    def chain(self, i):
        found = [i]
        while self.n["places"][found[-1]][1] is not None:
            found.append(self.parent(found[-1]))
        return found

    def has(self, i, parts):
        """Whether a path can begin at a place: with its own step, or with what was passed at the start."""
        place = self.n["places"][i]
        if place[1] is None:
            return alike(parts[0]) in ("args", "requires", "ranges", "type_inv", "lifetimes", "well_formed")
        arm = self.n["arms"][i]
        if arm and any([alike(p) for p in parts[: len(path) + 1]] == [alike(p) for p in [step, *path]] for _, step, path in arm[2]):
            return True
        return alike(parts[0]) == alike(place[2][0])

    def nearest(self, at, i, parts):
        """The place of a path on the way from `at` up: the one that was counted, else the nearest that has its step."""
        if not parts or self.has(i, parts):
            return i
        way = self.chain(at)
        fits = [j for j in way if self.has(j, parts)]
        if not fits:
            return i
        here = way.index(i) if i in way else 0
        return min(fits, key=lambda j: abs(way.index(j) - here))

    def step(self, i, parts, text):
        """What stands for a path of a place: parts begin with the place's own step, or with args and requires at the start."""
        name, _, (old, new), callee, renamed = self.n["places"][i]
        if not parts:
            self.said(f"whole record: {text}")
            return "c"
        arm = self.n["arms"][i]
        if arm:
            best = None
            for field, step, path in arm[2]:
                have = [step, *path]
                if [alike(p) for p in parts[: len(have)]] == [alike(p) for p in have] and (best is None or len(have) > best[0]):
                    best = (len(have), field)
            if best:
                return ".".join(["c", arm[0], best[1], *parts[best[0]:]])
        if old and alike(parts[0]) == alike(old):
            rest = list(parts[1:])
            for a, b in renamed:
                if rest and rest[0] == a:
                    rest[0] = b
                    break
            if callee and rest and rest[0] in ("new", "auto") and rest[1:2] in (["0"], ["1"]):
                k = 0
                j = 1
                while j < len(rest) and rest[j] == "1":
                    k += 1
                    j += 1
                params = self.n["params"].get(callee, [])
                if j < len(rest) and rest[j] == "0" and k < len(params):
                    rest = [rest[0], params[k], *rest[j + 1:]]
                else:
                    self.said(f"new of {callee}: {text}")
            return ".".join(["c", new, *rest])
        if self.n["places"][i][1] is None:
            return ".".join(["c", parts[0].replace("-", "_"), *parts[1:]])
        self.said(f"no step {parts[0]} at {name}: {text}")
        return ".".join(["c", *parts])

    def resolved(self, env, var, parts, text):
        i = env[var]
        parts = list(parts)
        while parts and parts[0] == "before":
            parts.pop(0)
            i = self.parent(i)
        return i, parts

    def body(self, text, place):
        env = {"c": self.index[place]}
        alias = re.compile(rf"let ({IDENT}) = ({IDENT})((?:\.before)*) in\s*")
        while True:
            found = None
            for m in alias.finditer(text):
                if m.group(2) in env and (m.group(3) or m.group(2) != "c"):
                    found = m
                    break
            if not found:
                break
            i, _ = self.resolved(env, found.group(2), [p for p in found.group(3).split(".") if p], found.group(0))
            env[found.group(1)] = i
            text = text[: found.start()] + text[found.end():]

        def turned(m):
            var, parts = m.group(1), [p for p in m.group(2).split(".") if p]
            if var not in env:
                return m.group(0)
            i, parts = self.resolved(env, var, parts, m.group(0))
            return self.step(self.nearest(env["c"], i, parts), parts, m.group(0))

        return PATH.sub(turned, text)


def declarations(text):
    """Top-level declarations of a file: (names that they declare, text), `use` lines apart."""
    uses, blocks = [], []
    current = []
    pending = []
    for line in text.split("\n"):
        if line.startswith("use "):
            uses.append(line)
            continue
        if line.startswith("--"):
            pending.append(line)
            continue
        starts = line and not line[0].isspace() and re.match(r"((?:(?:abbrev|unfoldable|pub|pattern)\s+)*)([^\s:]+)\s*(\{[^}]*\})?\s+:\s", line) or re.match(r"(module|data|record)\b", line or "")
        if starts:
            if current:
                blocks.append(current)
            current = pending + [line]
            pending = []
        elif line.strip():
            current += pending + [line]
            pending = []
        elif current:
            current.append("")
    if current:
        blocks.append(current)
    out = []
    for b in blocks:
        t = "\n".join(b).rstrip()
        out.append(t)
    return uses, out


def declared_in(block):
    names = re.findall(r"^ *(?:(?:abbrev|unfoldable|pub|pattern)\s+)*([^\s:(){}]+)\s*(?:\{[^}]*\})?\s+:\s", block, re.M)
    names += re.findall(r"^(?:pub )?(?:data|record) (\S+)", block, re.M)
    return [n for n in names if n != "module"]


def words(text):
    return set(re.findall(r"[^\s(){}\[\].,;]+", text))


def convert(folder, crate, path, names, said):
    source = os.path.join(folder, "Proof.antt")
    text = open(source, encoding="utf-8").read()
    if "tie.close" not in text and "tie.spec" not in text:
        said("by hand: kept")
        return
    f = Function(names, said)
    uses, blocks = declarations(text)
    loops = names["loops"]
    new_need = {}
    for (old, new), (place, _) in zip(names["needs"], names["asked_at"]):
        new_need[alike(old)] = (new, place)
        new_need.setdefault("overflow_" + alike(old), (new, place))
    order = re.search(r"\(tie\.spec\s+([^)]*)\)", text)
    listed = order.group(1).split() if order else []
    invariants, answers, helpers = [], [], []
    local_need = {}
    for b in blocks:
        m = re.search(r"^(\S+) : tie\.Need-([^\s]+)", b, re.M)
        if m:
            local_need[m.group(1)] = m.group(2)
    by_position = {}
    needs_listed = [n for n in listed if n in local_need]
    if len(needs_listed) == len(names["needs"]):
        for n, (old, new), (place, _) in zip(needs_listed, names["needs"], names["asked_at"]):
            by_position[n] = (new, place)
    elif needs_listed:
        said(f"{len(needs_listed)} parts then, {len(names['needs'])} now")
    for b in blocks:
        first = re.search(r"^((?:(?:abbrev|pub|unfoldable)\s+)*)(\S+)\s*(\{[^}]*\})? : (.*)$", b, re.M)
        if "tie.close" in b:
            continue
        if re.search(r": tie\.(invariant|decreases)", b):
            m = re.search(r": tie\.(invariant|decreases)-(\S+)", b)
            old_loop = m.group(2)
            k = next((k for k, (pair, _) in enumerate(loops) if alike(pair[0]) == alike(old_loop)), None)
            if k is None:
                said(f"no loop {old_loop}")
                continue
            pair, variables = loops[k]
            changed = names["changed"][k]
            m = re.search(rf"^({IDENT})((?: [^\s=]+)*) =\s*((?:.|\n)*)", "\n".join(b.split("\n")[1:]), re.M)
            formals = m.group(2).split()
            given = [(f"l.initial.{v}" if c else f"l.{v}") for v, c in zip(variables, changed)] + [f"l.{v}" for v, c in zip(variables, changed) if c]
            if len(formals) != len(given):
                said(f"loop {old_loop} has {len(formals)} names for {given}")
            stands = dict(zip(formals, given))
            body = PATH.sub(lambda x: stands.get(x.group(1), x.group(1)) + x.group(2), m.group(3).rstrip())
            kind = "invariant" if "tie.invariant" in b else "decreases"
            unfolding = "".join(l + "\n" for l in b.split("\n") if l.startswith("unfolding "))
            name = f"{kind}-{pair[1]}"
            invariants.append(f"abbrev pub {name} : goal.{name}\n{unfolding}{name} l ={' ' if not body.startswith(chr(10)) else ''}{body}")
            continue
        m = re.search(r"^(\S+) : tie\.Need-([^\s]+).*$", b, re.M)
        if m:
            local, need = m.group(1), alike(m.group(2))
            target = new_need.get(need) or by_position.get(local)
            if local in by_position and target != by_position[local]:
                target = by_position[local]
            if not target:
                said(f"no part {need}")
                continue
            new, place = target
            lines = b.split("\n")
            at = next(i for i, l in enumerate(lines) if l.startswith(f"{local} : "))
            comments = "".join(l + "\n" for l in lines[:at])
            unfolding = "".join(l + "\n" for l in lines[at + 1:] if l.startswith("unfolding "))
            clause = "\n".join(l for l in lines[at + 1:] if not l.startswith("unfolding "))
            m = re.match(rf"{re.escape(local)}((?: [^\s=]+)*) =(\s*)((?:.|\n)*)", clause)
            if not m:
                said(f"no clause of {local}")
                continue
            body = m.group(3).rstrip()
            if body == "search rules":
                continue
            extra = [x for x in m.group(1).split() if x not in ("c", "κs")]
            if "κs" in words(body):
                said(f"κs in {local}")
            body = f.body(body, place)
            if body.strip() == "search rules":
                continue
            args = " ".join(["c", *extra])
            answers.append(f"{comments}pub {new} : goal.{new}\n{unfolding}{new} {args} ={m.group(2) or ' '}{body}")
            continue
        helpers.append(b)
    kept = [u for u in uses if not MADE.search(u) and "borrow.Author.Rules" not in u]
    rules = "use borrow.Author.Rules.{rules}"
    inv_words = words("\n".join(invariants))
    to_invariants, changed_more = [], True
    while changed_more:
        changed_more = False
        for h in helpers:
            if h not in to_invariants and set(declared_in(h)) & inv_words:
                to_invariants.append(h)
                inv_words |= words(h)
                changed_more = True
    to_invariants = [h for h in helpers if h in to_invariants]
    others = [h for h in helpers if h not in to_invariants]
    module = f"Rattle.{crate}.proofs.{path.replace('/', '.')}"

    def needed(use_lines, body):
        used = words(body)
        out = []
        for u in use_lines:
            m = re.match(r"use ([^{]*)\.\{(.*)\}$", u)
            if not m:
                alias = re.search(r" as (\S+)$", u)
                if alias and alias.group(1) not in used:
                    continue
                out.append(u)
                continue
            items = []
            for item in m.group(2).split(","):
                item = item.strip()
                name = item.split(" as ")[-1].strip()
                if name in used or (name == "[]" and "[]" in body) or ("◌" in name and all(p in used or p in body for p in name.split("◌") if p)):
                    items.append(item)
            if items:
                out.append(f"use {m.group(1)}.{{{', '.join(items)}}}")
        return out

    if invariants:
        to_invariants = [re.sub(r"^(record|data) ", r"pub \1 ", h, flags=re.M) for h in to_invariants]
        public = ["\n".join(re.sub(r"^((?:abbrev |unfoldable )?)(?!pub )(\S+\s*(?:\{[^}]*\})?\s+:\s)", r"\1pub \2", l) if not l.startswith(("unfolding", "--", "module", " ", "pub ")) else (re.sub(r"^(  )((?:abbrev |unfoldable )?)(?!pub )([^\s:(){}]+\s*(?:\{[^}]*\})?\s+:\s)", r"\1\2pub \3", l) if h.startswith("module") else l) for l in h.split("\n")) for h in to_invariants]
        body = "\n\n".join(public + invariants)
        head = needed(kept + ([rules] if "rules" in words(body) else []), body) + [f"use {module}.Given as goal"]
        open(os.path.join(folder, "Invariants.antt"), "w", encoding="utf-8").write("\n".join(head) + "\n\n" + body + "\n")
    if answers:
        body = "\n\n".join(([] if invariants else to_invariants) + others + answers)
        shared = sorted({n for h in to_invariants for n in declared_in(h)} & words(body)) if invariants else []
        head = needed(kept + ([rules] if "rules" in words(body) else []), body)
        if shared:
            head.append(f"use {module}.Invariants.{{{', '.join(shared)}}}")
        head.append(f"use {module}.Goals as goal")
        open(os.path.join(folder, "Answers.antt"), "w", encoding="utf-8").write("\n".join(head) + "\n\n" + body + "\n")
    os.remove(source)


def main(crate, json_file):
    names = json.load(open(json_file))
    for folder, _, files in os.walk(f"crates/{crate}/proofs"):
        if "Proof.antt" not in files:
            continue
        path = os.path.relpath(folder, f"crates/{crate}/proofs")
        key = f"Rattle-{crate}-proofs.{path.replace('/', '.')}.Lts"

        def said(what, path=path):
            print(f"look: {crate}/{path}: {what}")

        if key not in names:
            said("no such function now")
            continue
        convert(folder, crate, path, names[key], said)


if __name__ == "__main__":
    main(*sys.argv[1:3])
