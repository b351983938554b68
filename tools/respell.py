#!/usr/bin/env python3
"""Spells the repository's own definitions, fields and lemmas in snake case: once, right after the kit's port.py.

    python3 tools/respell.py            # at the top: rewrites crates/*/{src,specs,proofs} in place
    python3 tools/respell.py --list     # prints the table, old and new, and names that fall together

A name of ours is one that a file of specs/ or proofs/ declares: at the left margin, indented in a `where`, or as a field of
a record. Names of goals are Rattle's and stay. A name behind a dot turns only if it is a field of a record of ours.
"""
import glob
import re
import sys

ANTT = sorted(glob.glob("crates/*/specs/**/*.antt", recursive=True) + glob.glob("crates/*/proofs/**/*.antt", recursive=True))
RT = sorted(glob.glob("crates/*/src/**/*.rt", recursive=True))
# laws that hide a definition of the same name in their trait
MEMBERS = [("crates/sequencer/src/lib.rt", "ghost claimed:", "ghost open_below_next:")]
# lemmas that the kit's script gave the name that their definition gets here
LEMMAS = {"shown_by": "shown_by_lem"}
WORD = r"[^\s(){}.;,@\"`:]+"


def snake(name):
    """firstOpen and first-open are first_open; a type keeps its capital."""
    if not re.search(r"[a-z0-9][A-Z]|-", name) or name[0].isupper():
        return name
    return re.sub(r"([a-z0-9])([A-Z])", lambda m: f"{m[1]}_{m[2].lower()}", name).replace("-", "_")


def declared(text):
    """The names that a file declares, and which of them are fields."""
    names, fields = set(), set()
    inside = False
    for line in text.splitlines():
        if re.match(r"(pub )?record |(pub )?data ", line):
            inside = True
        elif line and not line[0].isspace() and not line.startswith("--"):
            inside = False
        m = re.match(r"(\s*)(?:(?:abbrev|unfoldable) )?(?:pub )?(?:record |data |ruleset )?(" + WORD + r")(?: \([^)]*\))* : ", line + " ")
        if m and not re.search(r": goal\." + re.escape(m[2]) + r"\s*$", line):
            names.add(m[2])
            if inside and m[1]:
                fields.add(m[2])
    return names, fields


def table():
    names, fields = set(), set()
    for path in ANTT:
        n, f = declared(open(path, encoding="utf-8").read())
        names |= n
        fields |= f
    rows = {n: snake(n) for n in names if snake(n) != n}
    # a lemma that would have its definition's name
    for old, new in rows.items():
        if "-" in old and (new in names or any(o != old and "-" not in o and n == new for o, n in rows.items())):
            rows[old] = new + "_lem"
    rows |= {old: new for old, new in LEMMAS.items()}
    return rows, fields


def turned(text, rows, fields):
    def word(m):
        old = m[0]
        if "-" in old and "--" in text[text.rfind("\n", 0, m.start()) + 1 : m.start()]:
            return old
        before = text[m.start() - 1] if m.start() else " "
        if old not in rows or before == "." and old not in fields:
            return old
        return rows[old]

    return re.sub(WORD, word, text)


def main(argv):
    rows, fields = table()
    if argv == ["--list"]:
        for old, new in sorted(rows.items()):
            print(old, new)
        news = {}
        for old, new in rows.items():
            news.setdefault(new, []).append(old)
        for path in ANTT + RT:
            text = open(path, encoding="utf-8").read()
            words = set(re.findall(WORD, text))
            for new, olds in news.items():
                if new in words and any(old in words for old in olds):
                    print(f"together: {path}: {new} beside {[o for o in olds if o in words]}")
        for new, olds in news.items():
            if len(olds) > 1:
                print(f"together: {olds} -> {new}")
        return
    for path in ANTT + RT:
        text = open(path, encoding="utf-8").read()
        new = turned(text, rows, fields)
        for where, old, member in MEMBERS:
            if path == where:
                new = new.replace(old, member)
        if new != text:
            open(path, "w", encoding="utf-8").write(new)


main(sys.argv[1:])
