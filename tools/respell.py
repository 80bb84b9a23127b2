#!/usr/bin/env python3
"""Brings this repository's own definitions and lemmas to the spelling of today's Rattle: words in snake case.

usage: python3 tools/respell.py [ROOT]      once, after the kit's port.py, at the top of the repository

Every word of the antt files that is written in camel case (codeBits, length-bitsOf) is spelled in snake case
(code_bits, length-bits_of), in specs/, proofs/, the clauses of src/ and the pages. Types, modules and the variants of
enums keep their capitals, and functions of src/ keep their names: none of them is in camel case. getD, which the
library now calls get_or, is called so in the names of our lemmas too. Two words that would fall together stop it; in the
four files of APART one of them gets another name first, the lemma that would have its definition's name gets _lem.
"""
import collections
import glob
import os
import re
import sys

APART = {
    "crates/pairs/proofs/Order.antt": {"in_order": "in_order_lem"},
    "crates/pairs/proofs/Tables.antt": {"in_order": "in_order_lem"},
    "crates/stretches/proofs/Cut.antt": {"open_after": "open_after_lem"},
    "crates/history/proofs/Ranges.antt": {"has_room": "room_there"},
    "crates/history/proofs/Totals.antt": {"no_blocks": "none_counted"},
}
TOKEN = re.compile(r"[^\s(){}\[\].,;:\"«»`|/]+")


def snake(part):
    if part == "getD":
        return "get_or"
    if not re.match(r"[a-z]", part):
        return part
    return re.sub(r"(?<=[a-z0-9])([A-Z])", lambda m: "_" + m.group(1).lower(), part)


def respelled(word):
    return "-".join(snake(p) for p in word.split("-"))


def main(root):
    def find(*patterns):
        return sorted(f for p in patterns for f in glob.glob(os.path.join(root, p), recursive=True))

    def turn(f, names):
        old = open(f, encoding="utf-8").read()
        new = TOKEN.sub(lambda m: names.get(m.group(0), m.group(0)), old)
        if new != old:
            open(f, "w", encoding="utf-8").write(new)

    for f, names in APART.items():
        turn(os.path.join(root, f), names)
    antt = find("crates/*/specs/*.antt", "crates/*/proofs/**/*.antt")
    words, defined = set(), collections.defaultdict(set)
    for f in antt:
        text = open(f, encoding="utf-8").read()
        words.update(TOKEN.findall(text))
        for w in re.findall(r"(?m)^\s*(?:(?:abbrev|unfoldable|pub)\s+)*([^\s(){}:.]+) :", text):
            defined[w].add(f)
    turned = {w: respelled(w) for w in words if respelled(w) != w}
    clash = [w for w, n in turned.items() if defined[w] & defined[n] or list(turned.values()).count(n) > 1]
    if clash:
        raise SystemExit("respell: these would fall together with another word: " + " ".join(sorted(clash)))
    for f in antt + find("crates/*/src/**/*.rt", "README.md", "docs/**/*.md"):
        turn(f, turned)
    print(f"respell: {len(turned)} words")


main(sys.argv[1] if len(sys.argv) > 1 else ".")
