#!/usr/bin/env python3
"""Spells the repository's own definitions and lemmas in snake case, once, after the toolchain's script has turned the rest.

    tools/respell.py

run at the top, on the tree that the toolchain's script left. A name is turned where a file of specs/ or proofs/ declares it; names that are
made from the source keep theirs. Where a lemma's name would fall together with a definition's, the lemma gets the ending _law.
The crate `bytes` is called `numbers`, since the toolchain has a library of its old name.
"""
import collections
import glob
import os
import re
import subprocess

TOKEN = r"[^\s(){}\[\];,.\"`@⟨⟩]+"
WORDS = r"(?:abbrev|unfoldable|opaque|pub|private)"
DECLARATION = re.compile(
    r"^\s*(?:%s\s+)*((?:[^\s(){}\[\];,.\"`@:]+\s+)*[^\s(){}\[\];,.\"`@:]+)\s*(?:\(.*|\{.*)?\s*:\s" % WORDS)
OTHER = re.compile(r"^\s*(?:pub\s+)?(?:ruleset|data|record)\s+(\S+)")
OLD, NEW = "bytes", "numbers"
# two names that would fall together with a field of a record beside them
CHOSEN = {"noKind": "absent_kind"}


def is_old(name):
    dashed = re.match(r"^[a-z]", name) and re.search(r"[A-Za-z0-9_']-[A-Za-z0-9]", name)
    return bool(dashed or re.match(r"^[a-z][A-Za-z0-9_']*[A-Z]", name))


def snake(name):
    return re.sub(r"([a-z0-9])([A-Z])", r"\1_\2", name.replace("-", "_")).lower()


def declared():
    """each declared name with the files that declare it, those of a function's own proof left out"""
    found = collections.defaultdict(set)
    for path in glob.glob("crates/**/*.antt", recursive=True):
        for line in open(path, encoding="utf-8"):
            if line.lstrip().startswith("--"):
                continue
            other = OTHER.match(line)
            if other:
                found[other.group(1)].add(path)
            heads = DECLARATION.match(line.rstrip("\n") + " ")
            if heads:
                for name in heads.group(1).split():
                    found[name].add(path)
            # a record's fields on one line
            if re.match(r"^\s*(pub )?(abbrev pub|abbrev|record)? ?.*= record \{", line) or "Type 0 where {" in line:
                for name in re.findall(r"[{;]\s*(%s)\s*:" % TOKEN, line):
                    found[name].add(path)
    return found


def renamed(found):
    """the new name of each old one"""
    groups = collections.defaultdict(set)
    for name in found:
        # types and modules keep their capitals
        if is_old(name) or name[0].islower():
            groups[snake(name)].add(name)
    names = {}
    for new, olds in sorted(groups.items()):
        olds = {old for old in olds if old not in CHOSEN}
        turned = {old for old in olds if is_old(old)}
        if not turned:
            continue
        defining = sorted(old for old in olds if any("/specs/" in path for path in found[old]))
        plain = defining[0] if defining else (new if new in olds else sorted(olds)[0])
        if len(defining) > 1:
            print("several definitions:", new, defining)
        for old in sorted(olds):
            if old == plain:
                if old != new:
                    names[old] = new
            else:
                names[old] = new + "_law"
                if new + "_law" in found:
                    print("falls together:", old, new + "_law")
    names.update(CHOSEN)
    return names


def lent(text):
    """the names that a file brings in from the library"""
    found = set()
    for module, inside in re.findall(r"^use (\S+?)\.\{([^}]*)\}", text, re.M):
        if not re.match(r"Rattle\.(?!std\b)", module):
            found |= set(re.findall(TOKEN, inside))
    return found


def in_text(text, names):
    """each token by its new name; after a dot, where names that are made from the source stand, none gets an ending"""
    kept = lent(text)
    names = {old: new for old, new in names.items() if old not in kept}

    def turn(m):
        old = m.group(0)
        new = names.get(old, old)
        if m.start() > 0 and text[m.start() - 1] == "." and new.endswith("_law"):
            return snake(old)
        return new
    return re.sub(TOKEN, turn, text)


def in_source(text, names):
    """a source file's clauses: camel case anywhere, dashes only where a ghost item or a clause stands"""
    camel = {old: new for old, new in names.items() if re.search(r"[A-Z]", old)}
    return re.sub(r"(?<![\w-])[A-Za-z_][A-Za-z0-9_']*(?![\w-])", lambda m: camel.get(m.group(0), m.group(0)), text)


def in_page(text, names):
    names = {old: new for old, new in names.items() if is_old(old)}
    return re.sub(r"`([^`\n]+)`", lambda m: "`" + in_text(m.group(1), names) + "`", text)


def rewrite(path, turn):
    old = open(path, encoding="utf-8").read()
    new = turn(old)
    if new != old:
        open(path, "w", encoding="utf-8").write(new)


def rename_crate():
    subprocess.run(["git", "mv", "crates/" + OLD, "crates/" + NEW], check=True)
    for path in glob.glob("crates/**/*.antt", recursive=True):
        rewrite(path, lambda t: t.replace("Rattle.%s." % OLD, "Rattle.%s." % NEW).replace("calls-%s::" % OLD, "calls-%s::" % NEW))
    for path in glob.glob("crates/**/*.rt", recursive=True) + glob.glob("crates/**/*.edit", recursive=True):
        rewrite(path, lambda t: re.sub(r"\b%s::" % OLD, NEW + "::", t))
    rewrite("crates.txt", lambda t: "\n".join(
        line if line.startswith("#") else re.sub(r"\b%s\b" % OLD, NEW, line) for line in t.split("\n")))


def main():
    names = renamed(declared())
    for path in glob.glob("crates/**/*.antt", recursive=True):
        rewrite(path, lambda t: in_text(t, names))
    for path in glob.glob("crates/**/*.rt", recursive=True) + glob.glob("crates/**/*.edit", recursive=True):
        rewrite(path, lambda t: in_source(t, names))
    for path in glob.glob("docs/*.md") + ["README.md"]:
        rewrite(path, lambda t: in_page(t, names))
    rename_crate()
    print(len(names), "names turned")


main()
