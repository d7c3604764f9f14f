#!/usr/bin/env python3
"""Brings the repository's own definitions and lemmas to today's spelling: words in snake case, types and modules in camel case, ' for a prime.

usage: python3 respell.py [--list]     at the top of the repository, once, after port.py and a commit

It gathers what specs/ and proofs/ of crates/ declare (at the left margin, and the fields, constructors and lemmas of blocks below it), and turns each such name that
begins with a small letter and has a capital, a hyphen or a prime of the older kind, in .antt files and in the clauses and ghost uses of .rt files.
Functions, fields and labels of src/ keep their names, and so do names that Rattle makes (returns-2, loop-i-init, NAME_spec).
It stops, and writes nothing, where two names would fall together in one file, or a new name is that of a parameter of a function whose clauses cite it.
--list only prints the table. It needs the kit's rt on the PATH: the turning itself is done by a script that the kit brings for this.
"""

import collections
import os
import re
import subprocess
import sys
import tempfile

NAME = r"[^\s(){}.;,@\"«»]+"
DECLARED = re.compile(rf"(?m)^((?:(?:abbrev|unfoldable|pub|opaque|data|record|instance|syntax) +)*)({NAME})(?: \{{[^{{}}\n]*\}})* :(?!:)(?! tie\.| goal\.)")
# Names that would fall together with that of the definition or the lemma beside them.
CHOSEN = {
    "phase-in-order": "phase_is_in_order",
    "on-found": "on_what_is_found",
    "asks-for-one": "one_is_asked_for",
    "if-holder": "if_the_holder",
    "others-rows": "rows_of_others",
    "put-together": "are_put_together",
    "one-item": "item_alone",
    "oneMap": "one_map_of",
    "withItem": "with_the_item",
    "no-packets": "packets_are_none",
    "no-message": "message_is_none",
    "no-time": "time_is_none",
    "parameters-in": "parameters_are_in",
}
FIELD = re.compile(rf"(?m)^ +(?:pub +)?({NAME})(?: \{{[^{{}}\n]*\}})* : ")
INNER = re.compile(rf"(?m)^ +(?:(?:abbrev|unfoldable|pub) +)*({NAME})(?: \{{[^{{}}\n]*\}})* :(?!:)")
MADE = re.compile(r"(returns|invariant|decreases|loop|close|measure)(-|$)|.*[_-]spec$|.*-(requires|init|preserved|smaller)(-\d+)?$")


def snake(name):
    words = re.sub(r"(?<=[a-z0-9])[A-Z]+", lambda m: "_" + m[0].lower(), name)
    return words.replace("-", "_").replace("′", "'")


def files(root, *ends):
    for folder, dirs, names in os.walk(os.path.join(root, "crates")):
        dirs[:] = sorted(d for d in dirs if d != "out")
        for f in sorted(names):
            if f.endswith(ends):
                yield os.path.join(folder, f)


def read(path):
    with open(path, encoding="utf-8") as f:
        return f.read()


def table(root):
    found = {}
    for path in files(root, ".antt"):
        text = read(path)
        in_proof = re.search(r"/proofs/.*/(Proof|Answers|Invariants)\.antt$", path)
        names = [m[2] for m in DECLARED.finditer(text)]
        if not in_proof:
            names += INNER.findall(text)
            # fields of records, and constructors of data types
            for block in re.finditer(rf"(?m)^(?:pub |abbrev |unfoldable )*(?:record|data) .*where\n((?: +.*\n|\n)*)", text):
                names += FIELD.findall(block[1])
        for n in names:
            if "◌" in n or n[:1].isupper() or MADE.match(n):
                continue
            new = CHOSEN.get(n, snake(n))
            if new != n:
                found[n] = new
    return found


def collisions(root, rows):
    bad = []
    word = re.compile(NAME)
    for path in files(root, ".antt", ".rt"):
        text = re.sub(r"(?m)--.*$" if path.endswith(".antt") else r"(?m)//.*$", "", read(path))
        # A step of a path, before another step or a list of names, is a module.
        text = re.sub(rf"{NAME}(?=\.[\w{{+])", " ", text) if path.endswith(".antt") else text
        olds = {w for w in word.findall(text)}
        for n in olds & rows.keys():
            if rows[n] in olds and path.endswith(".antt"):
                bad.append((path, n, rows[n]))
        by_new = collections.defaultdict(set)
        for n in olds & rows.keys():
            by_new[rows[n]].add(n)
        bad += [(path, *sorted(v), k) for k, v in by_new.items() if len(v) > 1]
        if path.endswith(".rt"):
            for m in re.finditer(r"\bfn \w+[^(]*\(([^)]*)\)([^{]*(?:\{[^}]*\}[^{]*)*?)\n\{", text):
                params = set(re.findall(r"(\w+)\s*:", m[1]))
                cited = {rows[w] for w in word.findall(m[2]) if w in rows}
                bad += [(path, "parameter", p) for p in params & cited]
    return bad


def main():
    root = os.getcwd()
    rows = table(root)
    if "--list" in sys.argv:
        print("\n".join(f"{a}\t{b}" for a, b in sorted(rows.items())))
    bad = collisions(root, rows)
    for row in bad:
        print("falls together:", *row)
    if bad or "--list" in sys.argv:
        return 1 if bad else 0
    kit = os.path.dirname(subprocess.run(["rt", "doc"], capture_output=True, text=True).stdout.strip())
    turner = os.path.join(kit, "port/notes/2026-11-18-names-are-in-snake-case/snake.py")
    with tempfile.NamedTemporaryFile("w", suffix=".tsv", delete=False) as f:
        f.write("".join(f"{a}\t{b}\n" for a, b in sorted(rows.items())))
    folders = sorted(os.path.join(root, "crates", c, part) for c in os.listdir(os.path.join(root, "crates")) for part in ("src", "specs", "proofs") if os.path.isdir(os.path.join(root, "crates", c, part)))
    r = subprocess.run([sys.executable, turner, "--table", f.name, "--prose", "file", *folders])
    os.unlink(f.name)
    print(f"respell: {len(rows)} names")
    return r.returncode


sys.exit(main())
