#!/usr/bin/env python3
"""Brings the repository's own names in antt to the library's spelling.

usage: python3 tools/respell.py [--list]     at the top of the repository, once, after the kit's port.py

Definitions, lemmas, fields and variables are in snake case: `bodySize` becomes `body_size`. A dash stays where it joins the
names of two definitions (`length-symbols_of`), and becomes an underscore before a plain word (`redex-occurs`, `redex_occurs`).
Types, constructors and modules keep their capitals; functions and strings of src/, and the names that Rattle makes for the
steps of a proof, keep their spelling. Clauses, must-fail edits and the pages follow. With --list nothing is written; the new
names are printed, and those that fall together.
"""

import collections
import glob
import re
import sys

TOKEN = re.compile(r"(?<![\w'\-])[A-Za-z_][\w']*(?:-[\w']+)*")
HEAD = re.compile(r"^((?:(?:abbrev|unfoldable|pub|record|data|ruleset)\s+)*)([A-Za-z_][\w'\-]*)\s+(?:[:({]|where)")
FIELD = re.compile(r"^\s+(?:pub\s+)?([A-Za-z_][\w'\-]*)\s+:(?!=)")
WORDS = {"use", "unfolding", "mod", "infix", "infixl", "infixr", "where", "open"}
# A name of the older library inside one of ours.
OLD = {"getD": "get_or"}


def read(path):
    with open(path, encoding="utf-8") as f:
        return f.read()


def code(text):
    """Splits a file of antt into lines of code and comments: (is_comment, line)."""
    for line in text.split("\n"):
        yield line.lstrip().startswith("--"), line


def snake(word):
    word = OLD.get(word, word)
    if not word[:1].islower() or not any(c.isupper() for c in word):
        return word
    return re.sub(r"(?<=[a-z0-9])([A-Z])", lambda m: "_" + m.group(1).lower(), word)


def imports(text):
    """(module, names) of each `use M.{..}`."""
    for m in re.finditer(r"\buse\s+([\w.·+'\-]+?)\.\{([^}]*)\}", text, re.S):
        yield m.group(1), [n.strip().split(" as ")[0] for n in m.group(2).split(",") if n.strip()]


def tight(line):
    """The older spelling of a line of antt in an edit: paths with a middle dot, a space before a field, `_` in an operator."""
    line = re.sub(r"Rattle·(\w+)(?:·(?:specs|proofs))?\.", r"Rattle.\1.", line)
    line = re.sub(r"(?<=[\w')]) \.(?=[\w])", ".", line)
    line = re.sub(r"\((\w+(?:\.\w+)+)\)", r"\1", line)
    return line.replace("getD", "get_or")


def main():
    listing = "--list" in sys.argv[1:]
    crates = {p.split("/")[1] for p in glob.glob("crates/*/")}
    files = sorted(glob.glob("crates/*/specs/**/*.antt", recursive=True) + glob.glob("crates/*/proofs/**/*.antt", recursive=True))
    shared = [f for f in files if f.split("/")[2] == "specs" or len(f.split("/")) == 4]
    functions = [f for f in files if f not in set(shared)]

    definitions, own, library, made = set(), set(), set(), set()
    for f in files:
        text = read(f)
        for module, names in imports(text):
            parts = module.split(".")
            if parts[0] == "Rattle" and len(parts) > 1 and parts[1] in crates:
                continue
            library.update(names)
        for comment, line in code(text):
            if comment:
                continue
            m = HEAD.match(line)
            if m and m.group(2) not in WORDS:
                if f in functions and re.match(r"^[^:]*:\s*(tie|goal)\.", line):
                    made.add(m.group(2))
                else:
                    own.add(m.group(2))
                    if "/specs/" in f:
                        definitions.add(snake(m.group(2)))
            m = FIELD.match(line)
            if m and f in shared:
                own.add(m.group(1))
    names = definitions | {w for w in library if "-" not in w} | {snake(o) for o in own if "-" not in o and f not in functions}

    def turned(token):
        parts = [snake(p) for p in token.split("-")]
        if parts[-1] != "spec":
            for i in range(1, len(parts)):
                left, right = "_".join(parts[:i]), "_".join(parts[i:])
                if left in names and right in names:
                    return left + "-" + right
        return "_".join(parts)

    mapped = {}
    for f in shared:
        for comment, line in code(read(f)):
            if comment:
                continue
            for m in TOKEN.finditer(line):
                t = m.group(0)
                if t in library or t in mapped:
                    continue
                if "-" in t or (t[0].islower() and t != snake(t)):
                    if t in own or not re.search(r"[.]" + re.escape(t) + r"\b", line):
                        mapped[t] = turned(t)
    for t in own:
        if t not in library and ("-" in t or (t[0].islower() and t != snake(t))):
            mapped[t] = turned(t)
    for t in made | library:
        mapped.pop(t, None)
    mapped = {a: b for a, b in mapped.items() if a != b and not a.startswith(("invariant-", "decreases-"))}

    # A lemma that would have a definition's name gets `_lem`.
    camel = {a: b for a, b in mapped.items() if "-" not in a}
    taken = set(camel.values()) | {o for o in own | made if "-" not in o}
    for a, b in mapped.items():
        if "-" in a and a in own and b in taken:
            mapped[a] = b + "_lem"

    tokens = collections.Counter()
    for f in files + glob.glob("crates/*/src/**/*.rt", recursive=True):
        tokens.update(m.group(0) for m in TOKEN.finditer(read(f)))
    back = collections.defaultdict(set)
    for a, b in mapped.items():
        back[b].add(a)
        if tokens[b]:
            back[b].add(b)
    together = {b: sorted(a) for b, a in back.items() if len(a) > 1}
    if listing:
        for a in sorted(mapped):
            print(a, mapped[a])
        print("together:")
        for b in sorted(together):
            print(b, together[b])
        return

    def respelled(text):
        return TOKEN.sub(lambda m: mapped.get(m.group(0), m.group(0)), text)

    def quoted(text):
        return re.sub(r"`[^`\n]*`", lambda m: respelled(m.group(0)), text)

    for f in files:
        old = read(f)
        new = "\n".join(quoted(l) if c else respelled(l) for c, l in code(old))
        if new != old:
            open(f, "w", encoding="utf-8").write(new)
    for f in glob.glob("crates/*/src/**/*.rt", recursive=True):
        old = read(f)
        new = "\n".join(
            quoted(l) if l.lstrip().startswith("//") else TOKEN.sub(lambda m: camel.get(m.group(0), m.group(0)), l) for l in old.split("\n")
        )
        if new != old:
            open(f, "w", encoding="utf-8").write(new)
    for f in glob.glob("crates/*/must-fail/*.edit"):
        old = read(f)
        antt = re.search(r"^file: .*\.antt$", old, re.M)
        new = "\n".join(
            (respelled(tight(l)) if antt else respelled(l)) if l.startswith(("old:", "new:")) else quoted(l) for l in old.split("\n")
        )
        if new != old:
            open(f, "w", encoding="utf-8").write(new)
    for f in ["README.md"] + glob.glob("docs/**/*.md", recursive=True) + glob.glob("rust/**/*.md", recursive=True):
        old = read(f)
        new = quoted(old)
        if new != old:
            open(f, "w", encoding="utf-8").write(new)


main()
