#!/usr/bin/env python3
"""Brings the names that this repository's definitions and lemmas have of their own to snake case, in crates/ below a folder.

usage: python3 tools/respell.py [--list] [FOLDER]

Run once, right after port.py, which spells only some of them anew. It goes by whole words, in .antt and .rt files.
Turned: a name in lower camel case or with a dash that a text of crates/ declares, as portAt to port_at and send-raised to send_raised.
Types and modules keep their camel case, functions of src/ their names, and so do the labels that the check makes, behind 'tie.' and 'c.'.
A lemma that would fall together with a definition or with another name of a file that has it gets _lem behind it. --list writes nothing and prints every pair.
"""

import os
import re
import sys

WORD = re.compile(r'[^\s(){}.;,@"«»\[\]`]+')
DECLARED = re.compile(r"^\s*(?:abbrev |unfoldable |opaque )?(?:pub )?(?:abbrev |unfoldable )?([^\s:(){}.,;]+) : ?", re.M)
LOWER_CAMEL = re.compile(r"^[a-z0-9][^A-Z]*[a-z0-9][A-Z]")
# Lemmas that port.py spelled like a definition is to be spelled, each with its crate.
LEMMAS = {"promises": ("fields_fit", "in_order", "one_by_one"), "journal": ("kept_for",)}
# Words of the check's own that a proof file must declare under the name that the check looks for.
MADE = re.compile(r"^(invariant|decreases|measure)-")


def texts(root):
    for folder, dirs, files in os.walk(os.path.join(root, "crates")):
        dirs[:] = sorted(d for d in dirs if d not in ("out", "target"))
        for f in sorted(files):
            if f.endswith((".antt", ".rt")):
                yield os.path.join(folder, f)


def snake(name):
    """The plain spelling: a word's capital behind a small letter, and a dash, turn to _."""
    parts = [re.sub(r"(?<=[a-z0-9])([A-Z])(?=[a-z0-9]|$)", lambda m: "_" + m[1].lower(), p) if LOWER_CAMEL.match(p) else p for p in name.split("-")]
    return "_".join(parts)


def code_of(text, path):
    """The text without its lines of comment, for what stands in it."""
    mark = "--" if path.endswith(".antt") else "//"
    return "\n".join(l for l in text.split("\n") if not l.lstrip().startswith(mark))


def table(files):
    names = set()
    for p, text in files.items():
        if p.endswith(".antt"):
            names |= set(DECLARED.findall(code_of(text, p)))
    # A name with an upper first letter is a type's, and so is the first part of one with a dash.
    turned = {n: snake(n) for n in names if not MADE.match(n) and not n[0].isupper() and ("-" in n or LOWER_CAMEL.match(n))}
    # A lemma that falls together with a definition, or with a name that a file beside it has, gets _lem.
    defined = {new for n, new in turned.items() if "-" not in n}
    together = set()
    for p, text in files.items():
        words = set(WORD.findall(code_of(text, p)))
        here = {}
        for n in sorted(words & set(turned)):
            if turned[n] in words and (turned[n] in names or "-" in n):
                together.add(n)
            here.setdefault(turned[n], []).append(n)
        for ns in here.values():
            together |= set(ns if len(ns) > 1 else [])
    for n in sorted(turned):
        if "-" in n and (n in together or turned[n] in defined):
            turned[n] += "_lem"
    lemmas = {n for ns in LEMMAS.values() for n in ns}
    stays = {n for n in together if "-" not in n and turned[n] in names - lemmas}
    # One new name for two old ones anywhere is looked at by hand.
    back = {}
    for n, new in sorted(turned.items()):
        back.setdefault(new, []).append(n)
    return {n: new for n, new in turned.items() if n not in stays}, stays, {new: ns for new, ns in back.items() if len(ns) > 1}


def of_the_kit(text):
    """The names that a file brings in from the kit: they keep their spelling there."""
    return {w for l in text.split("\n") if re.match(r"(pub )?(ghost )?use (?!Rattle\.(?!std\b))", l) for w in WORD.findall(l)}


def turn(text, pairs, path):
    pairs = {n: new for n, new in pairs.items() if n not in of_the_kit(text)}
    out, last = [], 0
    for m in WORD.finditer(text):
        w = m[0]
        if w in pairs:
            # The path that the word ends, as 'c.before.loop'.
            head = re.search(r"[^\s(){};,@\"«»\[\]`]*$", text[max(0, m.start() - 200) : m.start()])[0]
            if head.startswith(("tie.", "c.")):
                continue
            out += [text[last : m.start()], pairs[w]]
            last = m.end()
    return "".join(out) + text[last:]


def main(argv):
    listing = "--list" in argv
    rest = [a for a in argv if a != "--list"]
    root = rest[0] if rest else "."
    files = {}
    for p in texts(root):
        with open(p, encoding="utf-8") as f:
            files[p] = f.read()
    pairs, stays, twice = table(files)
    if listing:
        for n in sorted(pairs):
            print(f"{n}\t{pairs[n]}")
    for n in sorted(stays):
        print(f"stays: {n} (would be {snake(n)})")
    for new in sorted(twice):
        print(f"look: {' and '.join(twice[new])} are both {new}")
    if not listing:
        changed = 0
        for p, text in files.items():
            crate = os.path.relpath(p, os.path.join(root, "crates")).split(os.sep)[0]
            new = turn(text, pairs | {n: n + "_lem" for n in LEMMAS.get(crate, ())}, p)
            if new != text:
                changed += 1
                with open(p, "w", encoding="utf-8") as f:
                    f.write(new)
        print(f"respell: {len(pairs)} names, {changed} files")
    return 0


if __name__ == "__main__":
    raise SystemExit(main(sys.argv[1:]))
