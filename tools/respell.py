#!/usr/bin/env python3
"""Spells the repository's own definitions and lemmas in snake case, in specs/, proofs/ and what src/ says of them.

usage: respell.py ROOT [--list]

A name is respelled where a text of specs/ or proofs/ declares it: camelCase and dashes become underscores. Kept are types, names that begin
with a capital, goals that the prover names, and names that a file imports from another library. It changes no edit below must-fail/.
"""
import glob
import os
import re
import sys
from collections import defaultdict

HOLD = r"[^\s(){}.;,@\"«»:]+"
DECLARED = re.compile(rf"^\s*(?:(?:abbrev|unfoldable|pub) )*({HOLD})(?: \{{[^{{}}\n]*\}})* :(?: |$)")
USE = re.compile(r"\buse ([^\s;{]+?)(?:\.\{([^}]*)\})?(?: as ([^\s;]+))?;?\s*$")
# a name that stands behind no dot
ALONE = re.compile(r"(?<![^\s(){},;@\"«»`])[^\s(){}.;,@\"«»`]+")
TOKEN = re.compile(r"[^\s(){}.;,@\"«»`]+")


def snake(name):
    words = re.sub(r"(?<=[a-z0-9])[A-Z]", lambda m: "_" + m[0].lower(), name)
    return words.replace("-", "_")


def wants(name):
    return not name[0].isupper() and ("-" in name or re.search(r"[a-z0-9][A-Z]", name)) and re.match(r"^\+?[a-z]", name)


def antt(root):
    for kind in "specs", "proofs":
        yield from glob.glob(f"{root}/crates/*/{kind}/**/*.antt", recursive=True)


def code_of(line):
    """The line before its comment."""
    at = re.search(r"(^|\s)--(\s|$)", line)
    return (line[: at.start()], line[at.start() :]) if at else (line, "")


def declared(root):
    """Each name that a text of the repository declares, with the files that do."""
    names = defaultdict(set)
    for path in antt(root):
        with open(path) as text:
            for line in text:
                code, _ = code_of(line.rstrip("\n"))
                m = DECLARED.match(code)
                if m and not re.search(r": (\{.*?\} → )?(tie|goal)\.", code):
                    names[m[1]].add(path)
    return names


def spellings(root):
    """The new spelling of each name that changes. A lemma that would have a definition's name in some file gets `_lem`."""
    names = declared(root)
    defined = {name for name, paths in names.items() if any("/specs/" in path for path in paths)}
    new = {name: snake(name) for name in names if wants(name)}
    groups = defaultdict(set)
    for name in names:
        groups[new.get(name, name)].add(name)
    groups = {spelling: group for spelling, group in groups.items() if len(group) > 1}
    for path in antt(root):
        with open(path) as f:
            tokens = {t for line in f.read().split("\n") for t in ALONE.findall(code_of(line)[0])}
        for spelling, group in groups.items():
            met = group & tokens
            if len(met) > 1:
                for name in met - defined:
                    new[name] = spelling + "_lem"
    return new


def foreign(text, own):
    """The names that a file imports from a library that is not the repository's."""
    names = set()
    for line in text.split("\n"):
        m = USE.search(line)
        if m and m[2]:
            steps = m[1].split(".")
            if not (steps[0] == "Rattle" and len(steps) > 1 and steps[1] in own):
                for item in m[2].split(","):
                    names.add(item.strip().split(" as ")[-1])
    return names


def respell(text, names, keep, in_rust):
    out = []
    for line in text.split("\n"):
        if in_rust:
            code, comment = line, ""
            if line.lstrip().startswith("//"):
                code, comment = "", line
        else:
            code, comment = code_of(line)
        code = TOKEN.sub(lambda m: names[m[0]] if m[0] in names and m[0] not in keep and wants(m[0]) else m[0], code)
        if not in_rust:
            code = ALONE.sub(lambda m: names[m[0]] if m[0] in names and m[0] not in keep and not wants(m[0]) else m[0], code)
        # in a comment a name with a dash may be prose: it is read as a name only between backticks
        comment = re.sub(r"`[^`]*`", lambda q: TOKEN.sub(lambda m: names.get(m[0], m[0]), q[0]), comment)
        comment = re.sub(r"\b[a-z][a-z0-9]*[A-Z]\w*", lambda m: names.get(m[0], m[0]), comment)
        out.append(code + comment)
    return "\n".join(out)


def main():
    root = sys.argv[1]
    own = {os.path.basename(p.rstrip("/")) for p in glob.glob(f"{root}/crates/*/")}
    names = spellings(root)
    if "--list" in sys.argv:
        for name in sorted(names):
            print(name, names[name])
        return
    files = list(antt(root)) + glob.glob(f"{root}/crates/*/src/**/*.rt", recursive=True)
    meets = 0
    for path in files:
        with open(path) as f:
            text = f.read()
        keep = foreign(text, own)
        tokens = set()
        for line in text.split("\n"):
            code = code_of(line)[0] if path.endswith(".antt") else line
            tokens.update(TOKEN.findall(code))
        made = defaultdict(set)
        for t in tokens:
            new = names[t] if t in names and t not in keep else t
            made[new].add(t)
        for new, olds in made.items():
            if len(olds) > 1:
                meets += 1
                print(f"meet: {os.path.relpath(path, root)}: {' '.join(sorted(olds))}", file=sys.stderr)
        new = respell(text, names, keep, path.endswith(".rt"))
        if new != text:
            with open(path, "w") as f:
                f.write(new)
    print(f"respelled {len(names)} names; {meets} names meet another in a file", file=sys.stderr)


main()
