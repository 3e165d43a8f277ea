#!/usr/bin/env python3
"""Brings the names that this repository's own antt files declare to today's spelling: snake case for definitions and lemmas.

usage: tools/respell.py [--map] [FOLDER]     once, right after the kit's port.py, at the top of the repository or of FOLDER

It reads which names crates/*/specs and crates/*/proofs declare, and respells those in .antt files, in .rt files outside string literals, in
must-fail edits and between backticks in the documents. Where a definition and a lemma would fall together, the lemma gets `_lem`.
Names of Rust functions, fields, exported calls, inputs and outputs are never touched. --map prints the respellings and writes nothing.
"""
import glob
import os
import re
import sys

WORD = re.compile(r"[^\s(){}\[\].,;\"`]+")
DECLARED = re.compile(r"^ *((?:(?:pattern|unfoldable|abbrev|pub)\s+)*)([^\s:(){}.,;]+)\s*(?:\{[^}]*\})?\s+:\s+(.*)$")
# Two definitions of packing/specs/RoundTrip would take names that it imports.
BY_HAND = {"pgn-of": "pgn_of_content", "service-of": "service_of_content"}
NOT_NAMES = {"module", "let", "in", "where", "record", "data", "use", "mod"}
GENERATED = re.compile(r"^(tie|goal|statement)\b")


def texts(*patterns):
    return sorted(p for pattern in patterns for p in glob.glob(pattern, recursive=True) if "/out/" not in p)


def snake(name):
    name = name.replace("-", "_")
    return re.sub(r"(?<=[a-z0-9'])([A-Z])", lambda m: "_" + m.group(1).lower(), name)


def declared(path):
    """Each declared name of a file with whether it is a definition: it unfolds somewhere, or was in camel case, as no lemma was."""
    for line in open(path, encoding="utf-8"):
        m = DECLARED.match(line)
        if not m or m.group(2) in NOT_NAMES or not re.match(r"[a-z]", m.group(2)):
            continue
        if path.endswith("Proof.antt") and (GENERATED.match(m.group(3)) or "statement M" in m.group(3)):
            continue
        yield m.group(2), "abbrev" in m.group(1) or "unfoldable" in m.group(1) or re.search("[a-z][A-Z]", m.group(2)) is not None


def respellings():
    definition = {}
    for path in texts("crates/*/specs/**/*.antt", "crates/*/proofs/**/*.antt"):
        for name, is_definition in declared(path):
            definition[name] = definition.get(name, False) or is_definition
    turned = {}
    for name in sorted(definition):
        new = BY_HAND.get(name, snake(name))
        if new != name:
            turned[name] = new
    by_new = {}
    for name in definition:
        by_new.setdefault(turned.get(name, name), []).append(name)
    for new, names in sorted(by_new.items()):
        if len(names) > 1 and any(definition[n] for n in names):
            for n in names:
                if not definition[n]:
                    turned[n] = new + "_lem"
    return turned, by_new, definition


def respelled(text, turned):
    return WORD.sub(lambda m: turned.get(m.group(0), m.group(0)), text)


def outside_strings(text, turned):
    parts = re.split(r'("(?:[^"\\\n]|\\.)*")', text)
    return "".join(p if i % 2 else respelled(p, turned) for i, p in enumerate(parts))


def in_backticks(text, turned):
    return re.sub(r"`[^`\n]+`", lambda m: respelled(m.group(0), turned), text)


def main(words):
    only_map = "--map" in words
    folder = [w for w in words if not w.startswith("--")]
    os.chdir(folder[0] if folder else ".")
    turned, by_new, definition = respellings()
    together = {new: names for new, names in by_new.items() if len(names) > 1}
    if only_map:
        for name, new in sorted(turned.items()):
            print(name, new)
        for new, names in sorted(together.items()):
            print("together:", new, " ".join(f"{n}{'=' if definition[n] else ''}" for n in names))
        return 0
    n = 0
    for path in texts("crates/**/*.antt", "crates/**/*.rt", "crates/**/*.edit", "docs/**/*.md", "README.md", "bench/README.md", "traces/README.md"):
        with open(path, encoding="utf-8", newline="") as f:
            old = f.read()
        turn = in_backticks if path.endswith(".md") else outside_strings if path.endswith((".rt", ".edit")) else respelled
        new = turn(old, turned)
        if new != old:
            n += 1
            with open(path, "w", encoding="utf-8", newline="") as f:
                f.write(new)
    print(f"respell: {len(turned)} names, {n} files")
    return 0


if __name__ == "__main__":
    raise SystemExit(main(sys.argv[1:]))
