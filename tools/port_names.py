#!/usr/bin/env python3
"""Respells the definitions and lemmas of this repository as today's Rattle spells them: words in snake case (docs/PORT.md).

usage: python3 tools/port_names.py [FOLDER]      run once, after port.py, over FOLDER/crates (here: .)

A name is turned where it is written in lower camel case, as `answerNumber`, in specs/, in proofs/ and in the clauses and comments of src/.
Types, modules and the names of src/ keep their spelling, and so do the short names of hypotheses, as `hP`. It stops before it writes where two
names would fall together.
"""

import os
import re
import sys

# A word: what antt takes as one name, without the dots of a path.
WORD = re.compile(r"[^\W\d][\w'₀₁₂₃₄₅₆₇₈₉⁰¹²³-]*")
SHORT = re.compile(r"^h[A-Z]$")
# Names that a rule can't give, and those that would fall together with another name.
OWN = {
    "getD-parikh": "get_or-parikh",
    "all_Alike": "all_alike",
    "cutOff": "is_cut_off",
    "storedCase": "stored_case_at",
    "first_entry": "first_match-entry",
    "nothing_read": "read_sheet-nothing",
    "top_set": "top_set-leb",
}


def turned(word):
    """The word's new spelling: each part between hyphens by itself."""
    if word in OWN:
        return OWN[word]
    if SHORT.match(word):
        return word
    return "-".join(part if not re.match(r"^[a-z]", part) else re.sub(r"(?<=[a-z0-9])([A-Z])", lambda m: "_" + m.group(1).lower(), part) for part in word.split("-"))


def files(root):
    for folder, dirs, names in os.walk(os.path.join(root, "crates")):
        dirs[:] = sorted(d for d in dirs if d not in ("out", "must-fail"))
        for name in sorted(names):
            if name.endswith((".antt", ".rt")):
                yield os.path.join(folder, name)


def main():
    root = sys.argv[1] if len(sys.argv) > 1 else "."
    texts = {path: open(path, encoding="utf-8").read() for path in files(root)}
    words = {w for text in texts.values() for w in WORD.findall(text)}
    new = {w: turned(w) for w in words if turned(w) != w}
    together = sorted((a, b) for a, b in new.items() if b in words)
    for a, b in together:
        where = [os.path.relpath(p, root) for p, t in texts.items() if re.search(r"(?<![\w'-])" + re.escape(b) + r"(?![\w'-])", t)]
        print(f"{a} would be {b}, which stands in {' '.join(where[:6])}")
    by_new = {}
    for a, b in new.items():
        by_new.setdefault(b, []).append(a)
    for b, several in sorted(by_new.items()):
        if len(several) > 1:
            print(f"{' and '.join(several)} would both be {b}")
    if "--list" in sys.argv:
        print(*sorted(new.items()), sep="\n")
        return
    for path, text in texts.items():
        done = WORD.sub(lambda m: new.get(m.group(0), m.group(0)), text)
        if done != text:
            open(path, "w", encoding="utf-8").write(done)
    print(f"{len(new)} names turned")


if __name__ == "__main__":
    main()
