#!/usr/bin/env python3
"""respell: brings the names of this repository's own definitions and lemmas to the spelling of today's Rattle, once, after port.py and before anything
is proved. Words are in snake case: `firstFrom` is `first_from`. A dash stays where it joins two names, as in `padded-length`, and is `_` before and
after a plain word: `row-end` is `row_end`. Names that are not in lower case stay: they are types, or the page's and the standards' own (GDK, KS, IP, PC-1).
usage: respell.py [--try]        at the top of the repository; with --try it prints what it would rename, and writes nothing"""
import re
import subprocess
import sys
from pathlib import Path

root = Path(subprocess.run(["git", "rev-parse", "--show-toplevel"], capture_output=True, text=True).stdout.strip())
NAME = r"[^\W_]|[_'⁻⁺′-]"
WORD = re.compile(rf"(?:{NAME})+")
DECLARED = re.compile(r"^\s*((?:(?:abbrev|unfoldable|pub|data|record)\s+)*)([^\s(){}:,;.]+)(?:\s*\([^()]*(?:\([^()]*\)[^()]*)*\)|\s*\{[^}]*\})*\s*:\s")
GENERATED = {"Proof.antt", "Answers.antt", "Invariants.antt"}
# std's own words that names here are joined to by a dash
STD = set("length get_or get-or take drop set map append reverse replicate filter sum fold cond max min eqb ltb leb not xor bit_xor bit_and bit_or sets bytes".split())
# words of Rattle's that proofs and goals are named by
KEPT = set("pub where module use".split())


# lemmas that port.py had spelled already, where a definition beside them now gets that name: the crates in which each becomes NAME_lem
BESIDE = {"digit_value": ["grammar"], "entry_in": ["properties"], "goes_on": ["counter"], "is_word": ["grammar"], "moved_in": ["properties"],
          "one_more": ["counter"], "one_size": ["stream", "encoder"]}


def files(*patterns):
    listed = subprocess.run(["git", "ls-files", "-co", "--exclude-standard", *patterns], cwd=root, capture_output=True, text=True).stdout.split("\n")
    return [root / f for f in listed if f and (root / f).is_file()]


def declared():
    """Each name that a file of specs/ or a file of lemmas declares, and whether it is a definition."""
    found = {}
    for path in files("crates/*.antt"):
        if path.name in GENERATED:
            continue
        inside = None
        for line in path.read_text().splitlines():
            if line.strip().startswith("--"):
                continue
            m = DECLARED.match(line)
            if not m:
                continue
            name, words = m[2], m[1].split()
            defines = bool({"abbrev", "unfoldable", "data", "record"} & set(words))
            found[name] = found.get(name, False) or defines
    return found


def snake(name):
    return re.sub(r"(?<=[^\W\dA-Z_])([A-Z])", lambda m: "_" + m[1].lower(), name)


def respelled(name, known):
    """The name as it is spelled today."""
    if not re.match(r"[^\W\d_]", name) or re.match(r"[A-Z]", name) and not re.search(r"[a-z]", name):
        return name
    parts = name.split("-")
    if any(not p for p in parts):
        return name
    out = parts[0] if parts[0][0].isupper() else snake(parts[0])
    left = parts[0]
    for p in parts[1:]:
        joined = left in known and p in known
        out += ("-" if joined else "_") + (p if p[0].isupper() else snake(p))
        left = p if joined else left + "-" + p
    return out


def table():
    all_names = declared()
    known = {n for n, defines in all_names.items() if defines} | STD
    known |= {n for n in all_names if n[:1].isupper()}
    new = {}
    for name in all_names:
        if name in KEPT:
            continue
        now = respelled(name, known)
        if now != name:
            new[name] = now
    # a lemma that would have a definition's name
    defined = {new.get(n, n) for n, defines in all_names.items() if defines}
    for name, now in new.items():
        if not all_names[name] and now in defined:
            new[name] = now + "_lem"
    return new, all_names


def turned(text, new):
    return WORD.sub(lambda m: new.get(m[0], m[0]), text)


def turned_source(text, new):
    """A file of Rattle: all but its strings."""
    pieces = re.split(r'(b?"(?:[^"\\]|\\.)*")', text)
    return "".join(p if k % 2 else turned(p, new) for k, p in enumerate(pieces))


def main():
    new, all_names = table()
    clash = {}
    for old, now in new.items():
        clash.setdefault(now, set()).add(old)
    for now, olds in sorted(clash.items()):
        if len(olds) > 1 or now in all_names:
            print("falls together:", ", ".join(sorted(olds)), "->", now, "(declared already)" if now in all_names else "")
    if "--try" in sys.argv:
        for old, now in sorted(new.items()):
            print(old, now)
        return
    for name, crates in BESIDE.items():
        for crate in crates:
            for path in files(f"crates/{crate}/specs/*.antt"):
                text = path.read_text()
                path.write_text(turned(text, {name: name + "_lem"}))
    for path in files("crates/*.antt"):
        text = path.read_text()
        path.write_text(turned(text, new)) if turned(text, new) != text else None
    for path in files("crates/*.rt"):
        text = path.read_text()
        path.write_text(turned_source(text, new)) if turned_source(text, new) != text else None
    for path in files("crates/*.edit"):
        text = path.read_text()
        path.write_text(turned_source(text, new)) if turned_source(text, new) != text else None


main()
