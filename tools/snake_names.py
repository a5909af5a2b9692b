#!/usr/bin/env python3
"""Brings the repository's own definitions and lemmas to snake case, after port.py, which respells only those that a library has too.

usage: python3 tools/snake_names.py [--list] [--old COMMIT]     at the top of the repository

It gathers the names that crates/*/specs/*.antt and crates/*/proofs/*.antt declare (at the head of a line, as `name : ..`), and writes each
that is in camel case or has a dash in snake case, wherever it stands as a whole word: in specs/, proofs/, clauses, must-fail edits, pages and
scripts of the gate. A name that begins with a capital is a type or a module and stays, with its dash. With --old COMMIT the names that port.py
itself changed since COMMIT are written in edits, pages and scripts too, which port.py leaves as they are.
Names of functions of src/ have no capital and no dash, so none of them moves.
"""
import collections
import glob
import os
import re
import subprocess
import sys

WORD = re.compile(r"[^\s(){}\[\];,.:=\"`|@]+")
HEAD = re.compile(r"^(\s*)(?:(?:abbrev|unfoldable)\s+)?(?:pub\s+)?([^\s(){};:=.,]+)(?:\s+[^\s(){};:=.,]+)*(?:\s+[({].*)?\s*:(?:\s|$)")
KIND = re.compile(r"^\s*(?:pub\s+)?(?:data|record|abbrev|unfoldable)\s+(?:pub\s+)?([^\s(){};:=.,]+)")
KEEP = {"λ", "use", "module", "where", "let", "in", "mod", "pub"}
# a lemma of two names keeps the dash between them
JOINED = re.compile(r"^[a-z]+[A-Z]\w*-|-[a-z]+[A-Z]")
# strings and comments of a line of code or of a clause
LITERAL = re.compile(r"b?\"(?:[^\"\\]|\\.)*\"|'(?:[^'\\ ]|\\.)'")
IMPORT = re.compile(r"\s*(?:ghost )?use ([^\s{]+)\.\{(.*)\}")
# what port.py changed in one file alone, as a local name
SAID = {"getD": "get_or", "Inv-loop": "invariant-loop", "μ-loop": "decreases-loop"}


def snake(name):
    if name[0].isupper():
        return name
    dash = "-" if JOINED.search(name) else "_"
    parts = name.split("-")
    parts = [re.sub(r"(?<=[a-z0-9'])([A-Z])", lambda m: "_" + m.group(1).lower(), p) for p in parts]
    return dash.join(parts)


def tracked(*patterns):
    out = subprocess.run(["git", "ls-files", "-z", *patterns], capture_output=True, text=True, check=True).stdout
    return [p for p in out.split("\0") if p]


def read(path):
    with open(path, encoding="utf-8") as f:
        return f.read()


def declared():
    names = collections.defaultdict(set)
    for path in sorted(glob.glob("crates/*/specs/*.antt") + glob.glob("crates/*/proofs/*.antt")):
        for line in read(path).splitlines():
            if line.lstrip().startswith("--") or line.startswith("use "):
                continue
            for m in (HEAD.match(line), KIND.match(line)):
                if m:
                    name = m.group(m.lastindex)
                    if name not in KEEP and re.match(r"^[\w'-]+$", name):
                        names[name].add(path)
    return names


def of_the_library():
    own = set(os.listdir("crates"))
    names = set()
    for path in tracked("crates/*.antt", "crates/*.rt"):
        for line in read(path).splitlines():
            m = IMPORT.match(line)
            if m and not (m.group(1).startswith("Rattle.") and m.group(1).split(".")[1] in own):
                names |= {w.strip() for item in m.group(2).split(",") for w in item.split(" as ")}
    return names


def tables():
    """What is renamed everywhere, and what in .antt files alone, where it stands by itself (a function of src/ may have that name)."""
    names, library = declared(), of_the_library()
    everywhere, alone = {}, {}
    for name in names:
        if re.search("[a-z0-9'][A-Z]", name) and "-" not in name and not name[0].isupper() and name not in library:
            everywhere[name] = snake(name)
    camel = set(everywhere.values())
    for name in camel & set(names):
        alone[name] = name + "_lem"
    for name in names:
        if "-" in name and snake(name) != name and name not in library:
            new = snake(name)
            everywhere[name] = new + "_lem" if new in camel or new in names or new in library else new
    return everywhere, alone


def ported(old):
    """The names that port.py changed since the commit `old`: those that the sources had there, and have no more, whose other spelling they have now."""
    def words(texts):
        return {w for t in texts for line in t.splitlines() for w in WORD.findall(LITERAL.sub(" ", line.split("--")[0]))}

    listing = subprocess.run(["git", "ls-tree", "-r", "--name-only", old, "crates"], capture_output=True, text=True, check=True).stdout.split()
    listing = [p for p in listing if p.endswith(".antt")]
    before = words(subprocess.run(["git", "show", *(f"{old}:{p}" for p in listing)], capture_output=True, text=True, check=True).stdout.split("\0"))
    now = words(read(p) for p in tracked("crates/*.antt"))
    return {w: snake(w) for w in before - now if re.match(r"^[\w'-]+$", w) and snake(w) != w and snake(w) in now}


def turned(text, table):
    """The text with each whole word of it that the table has written anew."""
    return WORD.sub(lambda m: table.get(m.group(0), m.group(0)), text)


def turned_code(line, table, comment):
    """The same of a line of code or of a definition: strings and what stands behind the comment's mark stay."""
    out, at = [], 0
    for m in re.finditer(LITERAL.pattern + "|" + comment + ".*", line):
        out += [turned(line[at:m.start()], table), m.group(0)]
        at = m.end()
    return "".join(out) + turned(line[at:], table)


def turned_page(text, table):
    """The same of a page: in what stands between backticks alone."""
    return re.sub(r"`[^`\n]*`", lambda m: turned(m.group(0), table), text)


def main(argv):
    everywhere, alone = tables()
    if "--list" in argv:
        for name, new in sorted({**alone, **everywhere}.items()):
            print(name, new)
        return 0
    old = argv[argv.index("--old") + 1] if "--old" in argv else None
    pages = {**(ported(old) if old else {}), **SAID, **everywhere}
    for path in tracked():
        if path.startswith("tools/") or os.path.islink(path):
            continue
        ending = path.rsplit(".", 1)[-1]
        if ending == "antt":
            table = {**alone, **everywhere}
            new = "".join(turned_code(line, table, "--") for line in read(path).splitlines(keepends=True))
            # a module of the same name as a lemma keeps it
            for name, lemma in alone.items():
                new = new.replace("." + lemma + ".", "." + name + ".").replace("." + lemma + " as", "." + name + " as")
        elif ending == "rt":
            new = "".join(turned_code(line, everywhere, "//") for line in read(path).splitlines(keepends=True))
        elif ending == "edit":
            new = "".join(line if line.startswith(("edit:", "file:")) else turned_code(line, pages, "//|-- ") for line in read(path).splitlines(keepends=True))
        elif ending == "md":
            new = turned_page(read(path), pages)
        else:
            continue
        if new != read(path):
            with open(path, "w", encoding="utf-8") as f:
                f.write(new)
    return 0


if __name__ == "__main__":
    sys.exit(main(sys.argv[1:]))
