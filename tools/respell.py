#!/usr/bin/env python3
"""Spells the repository's own definitions and lemmas as Rattle's library spells its own: words in snake case, a dash between two names.

usage: python3 tools/respell.py [--list] [FOLDER]      (FOLDER: the repository's top, . by default; --list only prints the table)

A name that specs/ or proofs/ declare and that begins with a small letter gets an underscore at each capital inside a part of it; a name that
specs/ declare also gets an underscore for each dash, but where it is a law (it stands in a file with 'unfolding', or holds a sign). Types and
modules keep their capitals. The choice `if◌then◌else◌` of crate base is `when◌then◌else◌`. Two crates that have the name of a library of the kit get another. The script then writes the new names wherever the old ones stand: in specs/ and proofs/, in the clauses and ghost
imports of src/, in must-fail/ and between backticks of the pages. A middle dot between a module and a name, in an import, goes.
"""

import glob
import os
import re
import sys

NAME = r"[^\s(){}.;,:@\"«»\[\]`]+"
DECLARED = re.compile(rf"(?m)^( *)((?:(?:abbrev|unfoldable|pub|data|record) )*)({NAME})(?: \{{[^{{}}\n]*\}})* :(?= |$)")
TOKEN = re.compile(rf"(?<![^\s(){{}}.;,:@\"«»\[\]`]){NAME}")


def snake(part):
    """lowerCamel -> lower_camel; a part that begins with a capital is a type and stays."""
    if not part[:1].islower():
        return part
    part = re.sub(r"(?<=[a-z0-9])([A-Z])(?=[A-Z]*[a-z0-9]|$|[^A-Za-z])", lambda m: "_" + m[1].lower(), part)
    return part


# Names that would meet another in some file: a test of a pattern is named as a test, and a law has its function's name with _lem.
APART = [("doubleNan", "double_is_nan"), ("floatNan", "float_is_nan"), ("getD", "get_or")]
LAWS = {"crates/stability/proofs/Settle.antt": {"fields_fit": "fields_fit_lem"}}
for counted in ("walk/proofs/ChildBytes", "frame/proofs/ReadHeld", "frame/proofs/ReadBack"):
    LAWS[f"crates/{counted}.antt"] = {"count_entries": "count_entries_lem"}


def respelled(name):
    """The new spelling: each part between dashes and arrows by itself."""
    for old, new in APART:
        name = re.sub(rf"(?<![A-Za-z]){old}(?![a-z])", new, name)
    return "".join(snake(p) if not re.fullmatch(r"[-→↔≤≥<≡]+", p) else p for p in re.split(r"([-→↔≤≥<≡]+)", name))


def table(top):
    names = {}
    for p in sorted(glob.glob(os.path.join(top, "crates", "*", "specs", "**", "*.antt"), recursive=True)):
        text = open(p, encoding="utf-8").read()
        for m in DECLARED.finditer(text):
            n = m[3]
            new = respelled(n)
            if re.fullmatch(r"[a-z0-9_]+(?:-[a-z0-9_]+)+", new):
                new = new.replace("-", "_")
            if new != n:
                names[n] = new
    for p in sorted(glob.glob(os.path.join(top, "crates", "*", "proofs", "**", "*.antt"), recursive=True)):
        text = open(p, encoding="utf-8").read()
        for m in DECLARED.finditer(text):
            n = m[3]
            new = respelled(n)
            if new != n and n not in names:
                names[n] = new
    return names


def turn(text, names, paths=True):
    def one(m):
        return names.get(m[0], m[0])
    return TOKEN.sub(one, text)


def turn_source(text, names):
    """The clauses and ghost items of a source; its code keeps its names."""
    out, depth, inside = [], 0, False
    for line in text.split("\n"):
        if not inside and re.match(r"\s*(ghost\b|requires\b|ensures\b|requires\*|ensures\*)", line):
            inside, depth = True, 0
        if inside:
            line = turn(line, names)
            line = re.sub(rf"({NAME}) as (\w+)·\1(?=[,}}])", r"\1", line)
            line = re.sub(r"\b[A-Z]\w*·(?=\w)", "", line)
            depth += line.count("{") - line.count("}")
            if depth <= 0:
                inside = False
        out.append(line)
    return "\n".join(out)


# Crates that have the name of a library of the kit.
CRATES = {"hex": "hex_text", "uuid": "uuid_text"}


def move_crates(top):
    """The folder, crates.txt, paths in sources, and links in pages."""
    for old, new in CRATES.items():
        if os.path.isdir(os.path.join(top, "crates", old)):
            os.rename(os.path.join(top, "crates", old), os.path.join(top, "crates", new))
    old = "|".join(CRATES)
    word = re.compile(rf"(?<![\w.-])({old})(?![\w.-])")
    for p in glob.glob(os.path.join(top, "crates", "**", "*.*"), recursive=True):
        if p.endswith((".rt", ".antt", ".edit")) and "/out/" not in p:
            text = open(p, encoding="utf-8").read()
            new = re.sub(rf"\bRattle\.({old})\b", lambda m: "Rattle." + CRATES[m[1]], text)
            new = re.sub(rf"(?<![\w:])({old})(?=::)", lambda m: CRATES[m[1]], new)
            if new != text:
                open(p, "w", encoding="utf-8").write(new)
    listed = os.path.join(top, "crates.txt")
    lines = open(listed, encoding="utf-8").read().split("\n")
    lines = [n if n.startswith("#") else re.sub(rf"(?<![\w]){'(' + old + ')'}(?![\w])", lambda m: CRATES[m[1]], n) for n in lines]
    open(listed, "w", encoding="utf-8").write("\n".join(lines))
    for p in glob.glob(os.path.join(top, "*.md")) + glob.glob(os.path.join(top, "docs", "**", "*.md"), recursive=True):
        text = open(p, encoding="utf-8").read()
        new = re.sub(rf"(?<=[(\[/])({old})/(?=specs|proofs|src|must-fail)", lambda m: CRATES[m[1]] + "/", text)
        if new != text and not os.path.basename(p).startswith("PORT"):
            open(p, "w", encoding="utf-8").write(new)


# The choice of base chains its else to the right, which the library's of that name does not, so it has a name of its own.
IF = "if◌then◌else◌"
BRANCH = re.compile(r"(?<![\w'.◌-])if(?![\w'◌-])")


def chosen(line):
    """One line of antt: what stands in front of a comment."""
    m = re.match(r"(.*?)((?:^|\s)--(?:\s.*)?)?$", line)
    return BRANCH.sub("when", m[1]) + (m[2] or "")


def turn_choice(top):
    for p in sorted(glob.glob(os.path.join(top, "crates", "**", "*.*"), recursive=True)):
        if "/out/" in p or not p.endswith((".antt", ".rt", ".edit")):
            continue
        text = open(p, encoding="utf-8").read()
        if p.endswith(".edit"):
            new = "\n".join(
                BRANCH.sub("when", n).replace(IF, IF.replace("if", "when")) if n.startswith(("old: ", "new: ")) and re.search(r"\bthen\b", n) else n
                for n in text.split("\n"))
        elif not re.search(rf"Rattle\.base\.specs\.Base\.\{{[^}}]*{IF}", text) and "infixr 1 " + IF not in text:
            continue
        elif p.endswith(".antt"):
            new = "\n".join(chosen(n) for n in text.split("\n")).replace(IF, IF.replace("if", "when"))
        else:
            out, depth, inside = [], 0, False
            for line in text.split("\n"):
                if not inside and re.match(r"\s*(ghost\b|requires\b|ensures\b|requires\*|ensures\*)", line):
                    inside, depth = True, 0
                if inside:
                    line = BRANCH.sub("when", line).replace(IF, IF.replace("if", "when"))
                    depth += line.count("{") - line.count("}")
                    inside = depth > 0
                out.append(line)
            new = "\n".join(out)
        if new != text:
            open(p, "w", encoding="utf-8").write(new)


def main():
    args = [a for a in sys.argv[1:] if a != "--list"]
    top = args[0] if args else "."
    names = table(top)
    if "--list" in sys.argv:
        for n in sorted(names):
            print(n, names[n])
        return
    move_crates(top)
    for p in sorted(glob.glob(os.path.join(top, "crates", "**", "*.*"), recursive=True)):
        rel = os.path.relpath(p, top)
        if "/out/" in p or not p.endswith((".antt", ".rt", ".edit")):
            continue
        text = open(p, encoding="utf-8").read()
        if p.endswith(".antt"):
            new = turn(turn(text, LAWS.get(rel, {})), names)
        elif p.endswith(".rt"):
            new = turn_source(text, names)
        else:
            new = turn(text, names) if re.search(r"^file: (specs|proofs)/", text, re.M) else text
        if new != text:
            open(p, "w", encoding="utf-8").write(new)
    for p in glob.glob(os.path.join(top, "*.md")) + glob.glob(os.path.join(top, "docs", "**", "*.md"), recursive=True):
        if os.path.basename(p).startswith("PORT"):
            continue
        text = open(p, encoding="utf-8").read()
        new = re.sub(r"`[^`\n]+`", lambda m: turn(m[0], names), text)
        if new != text:
            open(p, "w", encoding="utf-8").write(new)
    turn_choice(top)


if __name__ == "__main__":
    main()
