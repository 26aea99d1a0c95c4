#!/usr/bin/env python3
"""Brings this repository's own definitions, fields and lemmas to today's spelling: words in snake case, a dash only
between two names of definitions. It is run once at the top of a checkout, right after the port's own script, and takes
the names from the declarations of specs/ and proofs/. Names of Rattle functions, exported C names, types, modules and
the goals that a proof by hand answers (`tie.`) keep their spelling.

    python3 tools/respell.py          rewrites crates/, README.md and docs/
    python3 tools/respell.py --list   only prints old and new
"""
import glob
import re
import sys

NAME = r"[^\s(){}\[\].,;:`\"']+'*"
MODIFIERS = r"(?:(?:abbrev|unfoldable|inline|pub)\s+)*"
# Words of the library that a lemma's name may have at either side of a dash.
LIBRARY = set("length take drop append map filter get insert replicate sum fold swap remove".split())


def declared():
    """Each declared name with the kinds of places that declare it."""
    kinds = {}
    for path in glob.glob("crates/*/specs/**/*.antt", recursive=True) + glob.glob("crates/*/proofs/**/*.antt", recursive=True):
        below = path.split("/proofs/")[1] if "/proofs/" in path else None
        place = "definition" if below is None else "lemma"
        body = None
        for line in open(path):
            head = re.match(r"^(\s*)" + MODIFIERS + r"(record|data|module)\b", line)
            if head:
                body = (head.group(2), len(head.group(1)))
                continue
            found = re.match(r"^(\s*)" + MODIFIERS + "(" + NAME + r"(?:\s+" + NAME + r")*)\s+:\s", line)
            if not found:
                continue
            indent = len(found.group(1))
            kind = place
            if body and body[0] != "module" and indent > body[1]:
                kind = "member"
            elif indent == 0:
                body = None
            if re.search(r":\s.*\btie\.", line):
                kind = "goal"
            for name in found.group(2).split():
                kinds.setdefault(name, set()).add(kind)
    return kinds


def snake(word):
    word = re.sub(r"(?<=[a-z0-9])([A-Z])", lambda m: "_" + m.group(1).lower(), word)
    return word


def imported():
    """What the files take from the library."""
    names = set()
    for path in glob.glob("crates/*/**/*.antt", recursive=True):
        for line in open(path):
            found = re.match(r"use ([\w.]+)\.\{(.*)\}", line)
            if found and not found.group(1).startswith("Rattle.") or found and found.group(1).startswith("Rattle.std."):
                names |= {n.strip() for n in found.group(2).split(",")}
    return names


def renamed(kinds):
    library = imported()
    mine = {n: k for n, k in kinds.items() if re.match(r"^[a-z]", n) and "goal" not in k and n not in library}
    definitions = {snake(n) for n, k in mine.items() if "definition" in k and "-" not in n} | LIBRARY
    new = {}
    for name, kind in mine.items():
        parts = [snake(p) for p in name.replace("′", "'").split("-")]
        out = parts[0]
        for before, after in zip(parts, parts[1:]):
            names = kind == {"lemma"} and before in definitions and after in definitions
            out += ("-" if names else "_") + after
        if out != name:
            new[name] = out
    return new


def parted(kinds, new):
    """Two names that fall together: the definition keeps the name, a lemma gets `_lem`. Members of records may share one."""
    back = {}
    library = imported()
    for name, to in new.items():
        if to in library and "definition" not in kinds[name]:
            new[name] = to + "_lem"
    for name in kinds:
        back.setdefault(new.get(name, name), []).append(name)
    for both, names in back.items():
        if len(names) == 1 or all(kinds[n] == {"member"} for n in names):
            continue
        keeps = [n for n in names if n == both] or [n for n in names if "definition" in kinds[n]]
        for name in names:
            if name not in keeps[:1]:
                new[name] = both + "_lem"
    return new


TOKEN = re.compile(r"(?<![\w\-'′·])([a-z][\w\-'′]*)")


def respell(text, new):
    return TOKEN.sub(lambda m: new.get(m.group(1), m.group(1)), text)


def main():
    kinds = declared()
    new = parted(kinds, renamed(kinds))
    if "--list" in sys.argv:
        for name, to in sorted(new.items()):
            print(name, to)
        return
    paths = glob.glob("crates/*/specs/**/*.antt", recursive=True) + glob.glob("crates/*/proofs/**/*.antt", recursive=True)
    paths += glob.glob("crates/*/src/**/*.rt", recursive=True) + glob.glob("crates/*/must-fail/*.edit")
    for path in paths:
        text = open(path).read()
        after = respell(text, new)
        if after != text:
            open(path, "w").write(after)
    # In the documents only what stands as code.
    for path in glob.glob("docs/*.md") + ["README.md", "host/README.md"]:
        text = open(path).read()
        after = re.sub(r"`[^`\n]+`", lambda m: respell(m.group(0), new), text)
        if after != text:
            open(path, "w").write(after)
    print(len(new), "names respelled")


main()
