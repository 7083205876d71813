#!/usr/bin/env python3
"""Gives the repository's own definitions, lemmas and fields the spelling of today's Rattle: words in snake case, types in camel case.

usage: respell.py [--list] [PATH]    at the top of the repository, right after port.py

A name that a library declares keeps its spelling, and so do functions of src/, whose names were in snake case before. --list prints the
table of names and changes nothing. In comments only names in back quotes turn. It was run once, in the commit PORTED of docs/PORT.md.
"""
import os
import re
import sys

TOKEN = re.compile(r"[^\s(){}.;,@\"«»\[\]|λ`]+")
DECLARED = re.compile(
    r"^\s*(?:(?:pattern|unfoldable|abbrev|pub|let|where|mutual|in)\s+)*"
    r"((?:[^\s(){}.;,@\"«»\[\]|:=]+)(?:\s+[^\s(){}.;,@\"«»\[\]|:=]+)*)\s*(?:\{[^}]*\})?\s:\s",
    re.M,
)
USED = re.compile(r"use\s+([\w\-'′◌+]+(?:\.[\w\-'′◌+]+)*)\s*(?:\.\{([^}]*)\})?")
CAMEL = re.compile(r"^[a-z][\w₀-₉'-]*[A-Z]")
WORDS = re.compile(r"^[A-Za-z][\w₀-₉'ℓ-]*$")
COMMENT = re.compile(r"(?:^|(?<=\s))(?:--|//)(?=\s|$).*")
SPAN = re.compile(r"`[^`\n]+`")

def files(root):
    for folder, dirs, names in os.walk(os.path.join(root, "crates")):
        dirs[:] = sorted(d for d in dirs if d not in ("out", "must-fail", "data"))
        for name in sorted(names):
            if name.endswith((".antt", ".rt")):
                yield os.path.join(folder, name)


def bare(text):
    return "\n".join(COMMENT.sub("", line) for line in text.split("\n"))


def of_function(root, path):
    """Does the file stand in a function's folder of proofs/?"""
    parts = os.path.relpath(path, os.path.join(root, "crates")).split(os.sep)
    return parts[1] == "proofs" and len(parts) > 3


def snake(name):
    name = name.replace("getD", "get_or")
    if name[0].isupper():
        return "".join(w[:1].upper() + w[1:] for w in name.split("-"))
    out = ""
    for i, ch in enumerate(name):
        if ch == "-":
            out += "_"
        elif ch.isupper():
            out += ("_" if i and name[i - 1] not in "-_" and not name[i - 1].isupper() else "") + ch.lower()
        else:
            out += ch
    return out


def table(root):
    own = {c for c in os.listdir(os.path.join(root, "crates"))}
    library, declared, tokens = set(), set(), set()
    for path in files(root):
        with open(path, encoding="utf-8") as f:
            text = bare(f.read())
        for it in USED.finditer(text):
            parts = it[1].split(".")
            if parts[0] != "Rattle" or len(parts) < 2 or parts[1] not in own:
                library.update(re.split(r"[,\s]+", it[2] or ""))
                library.update(parts)
        tokens.update(it[0] for it in TOKEN.finditer(text))
        if path.endswith(".antt") and not of_function(root, path):
            for it in DECLARED.finditer(text):
                declared.update(it[1].split())
    turned = {}
    for name in sorted(tokens):
        if name in library or not WORDS.match(name):
            continue
        if (name in declared and "-" in name) or (CAMEL.match(name) and "-" not in name):
            turned[name] = snake(name)
    # a lemma that would have its definition's name ends in _lem
    plain = set(declared) - set(turned) | library | {b for a, b in turned.items() if "-" not in a}
    for a, b in turned.items():
        if "-" in a and b in plain:
            turned[a] = b + "_lem"
    return {a: b for a, b in turned.items() if a != b}, tokens, declared, library


def turn(text, names):
    return TOKEN.sub(lambda it: names.get(it[0], it[0]), text)


def turn_line(line, names):
    it = COMMENT.search(line)
    code, said = (line[: it.start()], line[it.start() :]) if it else (line, "")
    return turn(code, names) + SPAN.sub(lambda s: turn(s[0], names), said)


def spec(text):
    """The proof of a function f is f_spec."""
    return re.sub(r"(?<![\w'-])\+?([a-z0-9]+(?:[-_][a-z0-9]+)*)-spec(?![\w'-])", lambda it: it[0].replace("-", "_"), text)


def module(root, path):
    """The name of the module that a file of specs/ or proofs/ is."""
    parts = os.path.relpath(path, os.path.join(root, "crates"))[: -len(".antt")].split(os.sep)
    return ".".join(["Rattle", *parts])


def beside(root, names, declared):
    """Where a lemma had the snake form already and the definition gets it now, the lemma ends in _lem: file, lemma."""
    found, text = {}, {}
    for path in files(root):
        if path.endswith(".antt"):
            with open(path, encoding="utf-8") as f:
                text[path] = bare(f.read())
    for a, b in names.items():
        if "-" in a or b not in declared:
            continue
        both = [p for p, t in text.items() if re.search(rf"(?<![\w.'-]){b}(?![\w'-])", t) and re.search(rf"(?<![\w'-]){a}(?![\w'-])", t)]
        both = [p for p in both if re.search(rf"^\s*(?:(?:pub|abbrev) )*{b} :", text[p], re.M)]
        homes = {module(root, p) for p in both}
        for p, t in text.items():
            if p in both or any(it[1] in homes and b in re.split(r"[,\s]+", it[2] or "") for it in USED.finditer(t)):
                found.setdefault(p, set()).add(b)
    return found


def main():
    words = sys.argv[1:]
    root = next((w for w in words if not w.startswith("--")), ".")
    names, tokens, declared, library = table(root)
    both = {}
    for a, b in names.items():
        both.setdefault(b, []).append(a)
    for b, olds in sorted(both.items()):
        if len(olds) > 1 or b in declared or b in library:
            print("together:", b, *olds, "(declared)" * (b in declared), "(library)" * (b in library), file=sys.stderr)
    if "--list" in words:
        for a, b in sorted(names.items()):
            print(f"{a}\t{b}")
        for path, words in sorted(beside(root, names, declared).items()):
            print("lemma", path, *sorted(words), file=sys.stderr)
        return
    lemmas = beside(root, names, declared)
    for path in files(root):
        with open(path, encoding="utf-8") as f:
            text = f.read()
        for b in lemmas.get(path, ()):
            text = re.sub(rf"(?<![\w.'-]){b}(?![\w'-])", b + "_lem", text)
        new = "\n".join(turn_line(line, names) for line in text.split("\n"))
        if path.endswith("Proof.antt") and of_function(root, path):
            new = spec(new)
        if new != text:
            with open(path, "w", encoding="utf-8") as f:
                f.write(new)


main()
