#!/usr/bin/env python3
"""Brings the repository's own definitions and lemmas to one spelling: words in snake case, types and modules in camel case.

usage: python3 tools/respell.py    at the top, once, after the kit's port.py

A name that specs/ or proofs/ declares is turned where it has a dash or an inner capital (`first-only`, `refusalsOf`), in specs/,
proofs/, the clauses of src/, must-fail edits, edits kept in further/, and between back quotes in the pages. Names that a file
imports from outside, and the goals' names in proofs/F/, keep their spelling. A lemma that would have a function's name gets `_lem`.
"""
import collections
import os
import re
import sys

OWN = re.compile(r"^use Rattle\.(\w+)\.(specs|proofs)\.")
DECLARED = re.compile(r"^\s*(?:pub |abbrev |unfoldable |package )*([^\s:(){}.,;]+)\s*:(?:\s|$)")
TOKEN = re.compile(r"[^\s(){}\[\].,;:`\"⟦⟧⌜⌝!@]+")
GENERATED = ("Given", "Goals", "Statement", "Tie", "Walk")


def files(top, ends):
    for folder, folders, names in os.walk(top):
        folders[:] = sorted(f for f in folders if f not in ("out", ".git", "target"))
        for name in sorted(names):
            if name.endswith(ends):
                yield os.path.join(folder, name)


def of_function(path):
    return os.path.basename(path) in ("Proof.antt", "Answers.antt", "Invariants.antt") and not os.path.dirname(path).endswith("/proofs")


def snake(name):
    name = name.replace("-", "_")
    return re.sub(r"(?<=[a-z0-9])([A-Z])", lambda m: "_" + m.group(1).lower(), name)


def turns(name):
    return name[0].islower() and ("-" in name or re.search(r"[a-z0-9][A-Z]", name))


def read(path):
    with open(path, encoding="utf-8", newline="") as f:
        return f.read()


def imports(text):
    """The names that a file imports, of the repository and from outside."""
    own, outside = set(), set()
    for m in re.finditer(r"^(?:pub |ghost )*use ([^\s{;]+)\.\{([^}]*)\}", text, re.M):
        names = {n.split(" as ")[-1].strip() for n in m.group(2).split(",")}
        path = m.group(1).split(".")
        made = path[0] != "Rattle" or path[1] == "std" or path[3] == "declared" or (len(path) > 4 and path[-1] in GENERATED)
        (outside if made else own).update(names)
    return own, outside


def declared(top):
    names = collections.defaultdict(set)
    for path in files(top + "/crates", ".antt"):
        if of_function(path):
            continue
        for line in read(path).split("\n"):
            m = DECLARED.match(line)
            if m:
                names[m.group(1)].add(path)
    return names


def spelling(names):
    groups = collections.defaultdict(set)
    for name in names:
        groups[snake(name)].add(name)
    turned = {}
    for form, group in groups.items():
        for name in group:
            if turns(name):
                other = any("-" not in n for n in group)
                turned[name] = form + "_lem" if "-" in name and other else form
    return turned


def respelled(text, turned, kept, steps=False):
    """The text with its names turned; `steps`: a name with a dash behind a dot is a step of a function's proof, and stays."""

    def one(m):
        name = m.group(0)
        if name not in turned or name in kept or (steps and "-" in name and text[: m.start()].endswith(".")):
            return name
        return turned[name]

    return TOKEN.sub(one, text)


def antt(text, path, turned):
    own, outside = imports(text)
    kept = set(outside) - own
    here = set()
    for line in text.split("\n"):
        m = DECLARED.match(line)
        if m:
            here.add(m.group(1))
    if of_function(path):
        # what a function's own file declares is a goal, or a name of that file alone
        kept |= here
    lines = []
    for line in text.split("\n"):
        code, mark, comment = line.partition("--") if re.search(r"(^|\s)--(\s|$)", line) else (line, "", "")
        code = respelled(code, turned, kept, of_function(path))
        if mark:
            known = {n: t for n, t in turned.items() if n in here or n in own or "-" not in n}
            comment = respelled(comment, known, kept)
        lines.append(code + mark + comment)
    return "\n".join(lines)


def rattle(text, turned):
    """The clauses and imports of a source file: code, texts and comments have no such names but for camel case in comments."""
    lines, inside = [], False
    plain = {n: t for n, t in turned.items() if "-" not in n}
    for line in text.split("\n"):
        if re.match(r"\s*(ghost|requires|ensures)\b", line):
            inside = True
        if re.match(r"\s*//", line):
            lines.append(respelled(line, plain, ()))
        elif inside:
            lines.append(respelled(line, turned, ()))
        else:
            lines.append(line)
        if inside and (line.rstrip().endswith(("}", ";")) or line.strip() == "{"):
            inside = bool(re.match(r".*[{(,×→≡]\s*$", line)) and line.strip() != "{"
    return "\n".join(lines)


def edit(text, turned):
    lines = []
    for line in text.split("\n"):
        if re.match(r"(old|new): ", line):
            line = re.sub(r'b?"[^"]*"|[^"]+', lambda m: m.group(0) if '"' in m.group(0) else respelled(m.group(0), turned, ()), line)
        lines.append(line)
    return "\n".join(lines)


def page(text, turned):
    return re.sub(r"`[^`\n]+`", lambda m: respelled(m.group(0), turned, ()), text)


def main():
    top = "."
    turned = spelling(declared(top))
    if not turned:
        sys.exit("respell: nothing is left to turn")
    for path in files(top + "/crates", (".antt", ".rt", ".edit")):
        old = read(path)
        new = antt(old, path, turned) if path.endswith(".antt") else edit(old, turned) if path.endswith(".edit") else rattle(old, turned)
        if new != old:
            with open(path, "w", encoding="utf-8", newline="") as f:
                f.write(new)
    for folder, ends, how in (("/further", ".edit", edit), ("/docs", ".md", page)):
        for path in files(top + folder, ends):
            old = read(path)
            new = how(old, turned)
            if new != old:
                with open(path, "w", encoding="utf-8", newline="") as f:
                    f.write(new)
    for name in sorted(turned):
        print(name, turned[name])


if __name__ == "__main__":
    main()
