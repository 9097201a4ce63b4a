#!/usr/bin/env python3
"""Brings the repository's own definitions and lemmas to the spelling of today's Rattle: words in snake case.

usage: python3 tools/respell.py        at the top of the repository, once, after the kit's port.py

Every name that specs/ or proofs/ declare in camel case with a small first letter is respelled, in code, definitions, proofs and
edits of crates/. A lemma that would then share its name with a definition gets `_lem`. Types, modules, functions of src/ and
strings keep their names.
"""

import glob
import re
import sys

DECLARED = re.compile(r"^\s*(?:(?:abbrev|unfoldable|pub|record|data|ruleset) )*([^\s(){};,:\"`@]+)\s+:\s", re.M)
CAMEL = re.compile(r"[a-z0-9][A-Z]")
TOKEN = re.compile(r"[A-Za-z_][A-Za-z0-9_'\-₀-₉]*")
USE = re.compile(r"\buse [^\s{};]+\.\{([^}]*)\}")

# Names that the rule does not give well; those on `getD` are named after the library's `get_or`.
SPECIAL = {
    "leapMonth149": "leap_month_149",
    "getD-bytes": "get_or-bytes",
    "getD-filled": "get_or-filled",
    "getD-low": "get_or-low",
    "get_d_bits": "get_or-bits",
}

# Lemmas whose names, after port.py, are those that definitions get here.
LEMMAS = ["bits_in", "each_two", "fields_fit", "four_bytes", "nothing_read", "rest_from", "row_fits", "same_test"]


def snake(name):
    if name in SPECIAL:
        return SPECIAL[name]
    words = []
    for word in name.split("-"):
        if not word[:1].isupper():
            word = re.sub(r"([a-z0-9])([A-Z])", r"\1_\2", word).lower()
        words.append(word)
    return "-".join(words)


def read(path):
    with open(path, encoding="utf-8") as f:
        return f.read()


def main():
    files = sorted(p for p in glob.glob("crates/*/**/*", recursive=True) if p.endswith((".rt", ".antt", ".edit")) and "/out/" not in p)
    if not files:
        sys.exit("respell: no file below crates/; run it at the top of the repository")
    declared = {}
    for path in files:
        if path.endswith(".antt"):
            for name in DECLARED.findall(read(path)):
                declared.setdefault(name, []).append(path)
    renamed = {n: snake(n) for n in declared if n in SPECIAL or (CAMEL.search(n) and not n[0].isupper())}
    taken = sorted(new for new in set(renamed.values()) if new in declared and new not in LEMMAS)
    if taken or len(set(renamed.values())) < len(renamed):
        sys.exit(f"respell: names would fall together: {taken}")
    changed = 0
    for path in files:
        text = read(path)
        names = dict(renamed)
        if path.endswith(".antt"):
            here = set(DECLARED.findall(text))
            for items in USE.findall(text):
                here.update(item.strip() for item in items.split(","))
            names.update({n: n + "_lem" for n in LEMMAS if n in here})
        new = TOKEN.sub(lambda m: names.get(m.group(), m.group()), text)
        if new != text:
            changed += 1
            with open(path, "w", encoding="utf-8") as f:
                f.write(new)
    print(f"respell: {len(renamed)} names in {changed} files")


main()
