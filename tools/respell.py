#!/usr/bin/env python3
"""Respells the repository's own definitions and lemmas: words in snake case, types and facts in camel case.

usage: python3 tools/respell.py          at the top of the repository, once, after the kit's port.py
       python3 tools/respell.py --show   prints the old and the new names, and those that would fall together

Only names that this repository binds are respelled (definitions, lemmas, record fields, local names of proofs).
Names that Rattle makes of goals and of facts keep theirs, as do functions of src/, strings and comments in code.
"""

import os
import re
import sys
from collections import defaultdict

TOKEN = re.compile(r"[^\s(){}\[\];:,.@\"«»]+")
DASHED = re.compile(r"[A-Za-z_][\w']*(?:-[\w'+]+)+")
WORDS = r"(?:(?:abbrev|unfoldable|opaque|pub|data|record)\s+)*"
SIGNED = re.compile(r"^\s*" + WORDS + r"(?P<name>[A-Za-z_][^\s(){};,.:]*)(?P<more>[^:=]*):(?P<type>.*)")
LOCAL = re.compile(r"(?:\blet\s+|\(|\{|;\s*)([A-Za-z_][^\s(){};,.:=]*)(?=(?:\s+[A-Za-z_][^\s(){};,.:=]*)*\s*[:=]\s)")
LET = re.compile(r"\blet\s+([A-Za-z_][^\s(){};,.:=]*)")
LAMBDA = re.compile(r"λ\s+((?:[A-Za-z_][^\s(){};,.:=]*\s+)*[A-Za-z_][^\s(){};,.:=]*)\.")
AS = re.compile(r"\bas\s+([A-Za-z_][^\s(){};,.:=]*)")
LEFT = re.compile(r"^\s*(?:pub\s+)?[A-Za-z_][^\s(){};,.:=]*((?:\s+[A-Za-z_][^\s(){};,.:=]*)+)\s*=(?:\s|$)")
# a ghost member beside a function or a constant of the same words
SPECIAL = {"perTrack": "track_size", "firstTrack": "start_track"}


def texts(top, endings):
    for folder, dirs, files in os.walk(top):
        dirs[:] = sorted(d for d in dirs if d not in ("out", ".git"))
        for name in sorted(files):
            if name.endswith(endings):
                yield os.path.join(folder, name)


def without_comments(path, text):
    mark = r"(?m)(?:^|(?<=\s))--(?:\s.*)?$" if path.endswith(".antt") else r"//.*"
    return re.sub(mark, "", text)


def bound_names(path, text):
    """The names that a file of definitions or proofs binds, without the answers to Rattle's goals."""
    answers = set()
    for line in without_comments(path, text).splitlines():
        signed = SIGNED.match(line)
        if signed:
            if re.match(r"\s*(goal|goals|given|rules|need|needs|invariants?)\.", signed["type"]):
                answers.add(signed["name"])
                continue
            yield signed["name"]
            yield from TOKEN.findall(signed["more"])
        yield from LOCAL.findall(line)
        yield from LET.findall(line)
        for names in LAMBDA.findall(line):
            yield from names.split()
        left = LEFT.match(line)
        if left:
            yield from left[1].split()


def snake(word):
    word = word.replace("getD", "get_or").replace("++", "append")
    return re.sub(r"(?<=[a-z0-9])([A-Z])", r"_\1", word).lower()


def respelled(name):
    if name in SPECIAL:
        return SPECIAL[name]
    parts = name.split("-")
    if name[0].isupper():
        return "".join(p[:1].upper() + p[1:] for p in parts)
    return "_".join(snake(p) for p in parts)


def made_by_rattle(top):
    """Names of answers: Rattle makes them, and they keep their dashes."""
    made = set()
    for path in texts(top, ".antt"):
        for line in without_comments(path, open(path, encoding="utf-8").read()).splitlines():
            signed = SIGNED.match(line)
            if signed and re.match(r"\s*(goal|goals|given|rules|need|needs|invariants?)\.", signed["type"]):
                made.add(signed["name"])
    return made


def own_names(top):
    made = made_by_rattle(top)
    names = {}
    for path in texts(top, (".antt", ".rt")):
        text = open(path, encoding="utf-8").read()
        found = list(bound_names(path, text)) if path.endswith(".antt") else []
        for line in re.findall(r"(?m)^(?:ghost )?use [^;\n]*", text):
            found += AS.findall(line)
        for name in found:
            if DASHED.fullmatch(name) and name not in made:
                names[name] = respelled(name)
    return names | SPECIAL


def turn(path, text, names):
    def one(match):
        return names.get(match[0], match[0])

    if path.endswith((".md", ".edit")):
        if path.endswith(".edit"):
            return TOKEN.sub(one, text)
        return re.sub(r"`[^`\n]*`", lambda quoted: re.sub(r"[^\s(){}\[\];,.@\"«»`]+", one, quoted[0]), text)
    out = []
    for line in text.splitlines(keepends=True):
        mark = re.search(r"(?:^|(?<=\s))--(?=\s)" if path.endswith(".antt") else r"//", line)
        code, comment = (line[: mark.start()], line[mark.start() :]) if mark else (line, "")
        pieces = re.split(r'("(?:[^"\\]|\\.)*")', code)
        pieces = [p if i % 2 else TOKEN.sub(one, p) for i, p in enumerate(pieces)]
        comment = re.sub(r"`[^`\n]*`", lambda quoted: re.sub(r"[^\s(){}\[\];,.@\"«»`]+", one, quoted[0]), comment)
        out.append("".join(pieces) + comment)
    return "".join(out)


def fall_together(top, names):
    """Files in which a new name stands already, or two old names get one new name."""
    found = defaultdict(set)
    for path in texts(top, (".antt", ".rt")):
        tokens = set(TOKEN.findall(without_comments(path, open(path, encoding="utf-8").read())))
        for old in tokens & set(names):
            if names[old] in tokens:
                found[(old, names[old])].add(path)
            for other in tokens & set(names):
                if other != old and names[other] == names[old]:
                    found[(old, other)].add(path)
    return found


def main():
    names = own_names("crates")
    if "--show" in sys.argv[1:]:
        for old, new in sorted(names.items()):
            print(old, new)
        for pair, paths in sorted(fall_together("crates", names).items()):
            print("together:", *pair, "in", *sorted(paths))
        return
    changed = 0
    for path in [*texts("crates", (".antt", ".rt", ".edit")), *texts("docs", ".md"), "README.md"]:
        text = open(path, encoding="utf-8").read()
        new = turn(path, text, names)
        if new != text:
            changed += 1
            with open(path, "w", encoding="utf-8") as file:
                file.write(new)
    print(f"respell: {len(names)} names, {changed} files")


main()
