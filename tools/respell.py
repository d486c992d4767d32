#!/usr/bin/env python3
"""Spells the repository's own definitions and lemmas as today's Rattle does: after port.py, once, at the top of the repository.

Types, facts, modules, variants and the operators' names (IC, FM, ..) are in upper camel case and stay. In every other declared name each part between
dashes goes from camel to snake case: `fitOf` is `fit_of`, `above-upFrom` is `above-up_from`. Names of src/ have no camel case but in types, so they
stay. Whole words are turned, in specs/, proofs/, clauses and must-fail edits. A lemma in LEMMAS gets `_lem`, since the function that it is on takes its name.
It prints each old and new name, and stops before it writes where a new name stands in a file that has the old one.
"""

import re
import sys
from pathlib import Path

ROOT = Path(__file__).resolve().parent.parent
WORD = r"[^\s(){}.;,@\"«»\[\]|`]+"
HEAD = re.compile(r"^((?:(?:abbrev|unfoldable|pub|data|record)\s+)*)(" + WORD + r")(?:\s[^:=]*?)?\s*:(?!=)", re.M)
INNER = re.compile(r"^\s+(?:pub\s+)?(" + WORD + r")\s*:(?!=)", re.M)
# `in_body` is a parameter of functions whose contracts name the definition
NAMES = {"inBody": "is_in_body"}
# Lemmas that would have the name of the function they are on.
LEMMAS = "all_named code_row inputs_in kind_ok kinds_kept member_of node_at same_kind same_row set_values text_at whole_row".split()


def snake(part):
    """One part of a name, in snake case."""
    if not re.match(r"[a-zμ_]", part):
        return part
    return re.sub(r"(?<=[a-z0-9₀-₉])([A-Z])", lambda m: "_" + m[1].lower(), part)


def respelled(name):
    return NAMES.get(name) or "-".join(snake(part) for part in name.split("-"))


def antt_files():
    return sorted([*ROOT.glob("crates/*/specs/**/*.antt"), *ROOT.glob("crates/*/proofs/**/*.antt")])


def declared():
    """The names that a file of specs/ or a file of lemmas declares, fields and constructors among them."""
    found = set()
    for file in antt_files():
        text = re.sub(r"(?m)--.*$|^(?:pub )?use .*$", "", file.read_text(encoding="utf-8"))
        found |= {m[2] for m in HEAD.finditer(text)} | {m[1] for m in INNER.finditer(text)}
    return found


def main():
    table = {name: respelled(name) for name in sorted(declared()) if respelled(name) != name}
    lemmas = {name: f"{name}_lem" for name in LEMMAS}
    files = antt_files() + sorted(ROOT.glob("crates/*/src/**/*.rt")) + sorted(ROOT.glob("crates/*/must-fail*/*.edit"))
    texts = {file: file.read_text(encoding="utf-8") for file in files}
    together = set()
    for file, text in texts.items():
        # what stands behind a dot is a field or a step, and in src/ only a parameter could hide a definition
        words = set(re.findall(r"(?<![^\s(){},@\"«»\[\]|`])" + WORD, text)) if file.suffix == ".antt" else set(re.findall(r"\b\w+(?=: )", text))
        words -= set(LEMMAS)
        if re.search(r"/proofs/.*/", str(file.relative_to(ROOT))):
            continue  # a step or a goal has the name of a function of src/
        olds = set(re.findall(WORD, text))
        together |= {(old, new, str(file.relative_to(ROOT))) for old, new in table.items() if old in olds and new in words}
    seen = {}
    for old, new in table.items():
        seen.setdefault(new, []).append(old)
    for new, olds in seen.items():
        if len(olds) > 1:
            together.add((" ".join(olds), new, "two names"))
    for old, new, where in sorted(together):
        print(f"falls together: {old} -> {new}: {where}")
    if together:
        return 1
    for file, text in texts.items():
        new = text
        if file.suffix == ".antt":
            new = re.sub(r"(?<![^\s(){},@\"«»\[\]|`])" + WORD, lambda m: lemmas.get(m[0], m[0]), new)
        new = re.sub(WORD, lambda m: table.get(m[0], m[0]), new)
        if new != text:
            file.write_text(new, encoding="utf-8")
    for old, new in [*table.items(), *lemmas.items()]:
        print(f"{old}\t{new}")
    return 0


if __name__ == "__main__":
    sys.exit(main())
