#!/usr/bin/env python3
"""Respells the repository's own definitions, lemmas and local names of specs/, proofs/ and clauses: snake case for words, camel case for types.

usage: respell.py [ROOT]     once, after the kit's port.py, with everything committed

A name that a file imports from the library keeps its spelling there, and so do names of Rust code, strings, and the goals that the check itself
names. It prints each name that falls together with another one in a file.
"""

import collections
import os
import re
import sys

TOKEN = re.compile(r"[^\s(){}\[\];,.\"@|«»]+")
WORD = re.compile(r"[A-Za-z]")
USE = re.compile(r"^\s*(?:pub )?(?:ghost )?use ([^\s{;]+)\.\{([^}]*)\}", re.M)
HEAD = re.compile(r"^\s*(?:pub |abbrev |unfoldable )*([^\s:(){};,.\"]+) : (.*)$", re.M)
KIND = re.compile(r"^\s*(?:pub |abbrev |unfoldable )*(?:(data|record) )?([A-Z][^\s:(){};,.\"]*-[^\s:(){};,.\"]*)(?: \([^\n]*\))? :([^\n]*)$", re.M)
# Lemmas that the plain rule would let fall together with the definition that they speak of, by the file that they stand or are cited in.
APART = {
    "checker/proofs/bodies/Meeting.antt": {"known-arity": "known_arity_lem", "known-count": "known_count_lem"},
    "checker/proofs/ownership/Branching.antt": {"slots-of": "ready_slots"},
    "checker/proofs/ownership/Nodes.antt": {"take_at": "take_at_lem"},
    "checker/proofs/ownership/Spending.antt": {"used-slot": "used_slot_lem"},
    "checker/proofs/ownership/Turns.antt": {"on_fine": "on_fine_lem"},
    "checker/proofs/ownership/take_pair/Proof.antt": {"on_fine": "on_fine_lem"},
    "checker/proofs/ownership/take_make/Proof.antt": {"on_fine": "on_fine_lem"},
    "machine/proofs/start/": {
        "all-begun": "all_begun_lem",
        "drain-fine": "drain_fine_lem",
        "free-begun": "free_begun_lem",
        "free-fine": "free_fine_lem",
        "owned-begun": "owned_begun_lem",
        "code-in": "code_in_lem",
        "code-of": "code_of_lem",
    },
    "meaning/proofs/Table.antt": {"key-of": "key_of_lem"},
}


def files(root):
    for folder, dirs, names in os.walk(os.path.join(root, "crates")):
        dirs[:] = sorted(d for d in dirs if d != "out")
        for name in sorted(names):
            if name.endswith((".antt", ".rt")):
                yield os.path.join(folder, name)


def comment_at(line, rust):
    m = re.search(r"//" if rust else r"(^|\s)--(\s|$)", line)
    return m.start() if m else len(line)


def snake(word):
    """A word in snake case; a mark of document 01, as OP, and a prime keep their spelling."""
    parts = re.sub(r"(?<=[A-Za-z0-9'₀-₉])-(?=[A-Za-z0-9])", "_", word)
    return re.sub(r"(?<=[a-z0-9])([A-Z])(?![A-Z])", lambda m: "_" + m.group(1).lower(), parts)


def camel(word):
    return "".join(p[:1].upper() + p[1:] for p in word.split("-"))


def candidate(word):
    return bool(re.search(r"[A-Za-z0-9'₀-₉]-[A-Za-z]", word) or re.search(r"[A-Za-z]-[0-9]", word) or re.match(r"[a-z][a-z0-9_]*[A-Z](?![A-Z])", word))


def own_fields(root):
    """Names that stand at the head of a line in files that are not a function's proof: own definitions, fields and constructors."""
    own, types = set(), set()
    for path in files(root):
        if path.endswith(".rt") or os.path.basename(path) == "Proof.antt":
            continue
        text = "\n".join(l[: comment_at(l, False)] for l in open(path).read().split("\n"))
        for m in HEAD.finditer(text):
            own.update(m.group(1).split())
        for m in re.finditer(r"[{;(] *(?:pub )?([^\s:(){};,.\"]+(?: [^\s:(){};,.\"]+)*) :", text):
            own.update(m.group(1).split())
        for m in re.finditer(r"^\s*((?:[^\s:(){};,.\"]+ )+): [A-Z]", text, re.M):
            own.update(m.group(1).split())
        for m in KIND.finditer(text):
            if m.group(1) or re.search(r"Type( \d)?( where)?$", m.group(3).strip()):
                types.add(m.group(2))
    return own, types


def library(text, crates):
    names = set()
    for m in USE.finditer(text):
        parts = m.group(1).split(".")
        if parts[0] == "Rattle" and len(parts) > 1 and parts[1] in crates:
            continue
        names.update(n.strip().split(" as ")[-1].strip() for n in m.group(2).split(","))
    return names


def respelled(word, own, types):
    """A name of the repository's own, which the kit's script may have turned already, as it is spelled now."""
    if word in types:
        return camel(word)
    return snake(word) if candidate(word) and (word in own or snake(word) in own) else word


def cited(text, own, types):
    """A text in which the names between backquotes are respelled."""

    def turn(m):
        word = m.group(0)
        return respelled(word, own, types)

    return re.sub(r"`([^`\n]*)`", lambda m: "`" + TOKEN.sub(turn, m.group(1)) + "`", text)


def pages(root):
    yield os.path.join(root, "README.md")
    for part in ("docs", "examples", "bench", "peer"):
        for folder, dirs, names in os.walk(os.path.join(root, part)):
            dirs[:] = sorted(d for d in dirs if d != "target")
            for name in sorted(names):
                if name.endswith(".md"):
                    yield os.path.join(folder, name)


def edits(root):
    for folder, dirs, names in os.walk(os.path.join(root, "crates")):
        dirs[:] = sorted(d for d in dirs if d != "out")
        for name in sorted(names):
            if name.endswith(".edit"):
                yield os.path.join(folder, name)


def respell(path, own, types, crates, report):
    rust = path.endswith(".rt")
    proof = os.path.basename(path) == "Proof.antt"
    text = open(path).read()
    keep = library(text, crates)
    goals = set(re.findall(r"^([^\s:]+) : (?:\([^)]*\) → )?tie\.[^\s]+$", text, re.M)) if proof else set()
    turned = collections.defaultdict(set)
    apart = {}
    for place, names in APART.items():
        if place in path:
            apart.update(names)

    def turn(m):
        word, start = m.group(0), m.start()
        dotted = start > 0 and m.string[start - 1] == "." and start > 1 and not m.string[start - 2].isspace()
        new = word
        if word in apart:
            new = apart[word]
        elif word in types:
            new = camel(word)
        elif rust and word not in own:
            new = word
        elif word in keep and not dotted:
            new = word
        elif proof and (word in goals or (dotted and word not in own)):
            new = word
        elif candidate(word) and not re.match(r"[A-Z][a-z]", word) and not word.startswith("Rattle"):
            new = snake(word)
        elif candidate(word) and word not in keep and "-" in word and word in own:
            new = word
            report.append(f"capital: {os.path.relpath(path)}: {word}")
        if WORD.search(new):
            turned[new].add(word)
        return new

    out = []
    for line in text.split("\n"):
        cut = comment_at(line, rust)
        code, note = line[:cut], line[cut:]
        if not re.match(r"\s*(pub )?use [^{]*$", code) or rust:
            code = TOKEN.sub(turn, code)
        out.append(code + cited(note, own, types))
    for new, olds in sorted(turned.items()):
        if len(olds) > 1:
            report.append(f"together: {os.path.relpath(path)}: {' '.join(sorted(olds))} -> {new}")
    if rust:
        names = set(re.findall(r"\bfn (\w+)", text))
        for new, olds in turned.items():
            if new in names and olds != {new}:
                report.append(f"function: {os.path.relpath(path)}: {' '.join(sorted(olds))} -> {new}")
    new = "\n".join(out)
    if new != text:
        open(path, "w").write(new)
        return 1
    return 0


def main(root):
    crates = set(os.listdir(os.path.join(root, "crates")))
    own, types = own_fields(root)
    report, n = [], 0
    for path in files(root):
        n += respell(path, own, types, crates, report)
    for path in pages(root):
        text = open(path).read()
        open(path, "w").write(cited(text, own, types))
    for path in edits(root):
        lines = []
        for line in open(path).read().split("\n"):
            if line.startswith(("old: ", "new: ")):
                line = line[:5] + TOKEN.sub(lambda m: respelled(m.group(0), own, types), line[5:])
            lines.append(line)
        open(path, "w").write("\n".join(lines))
    print("\n".join(report))
    print(f"respell: {n} files; types: {' '.join(sorted(types))}")


if __name__ == "__main__":
    main(sys.argv[1] if len(sys.argv) > 1 else ".")
