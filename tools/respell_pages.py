#!/usr/bin/env python3
"""Brings the names on the pages to the spelling that the port to today's Rattle gave them.

usage: python3 tools/respell_pages.py [--list]      at the top of the repository

docs/PORT.md names the last commit before the port and the one in which the kit's port.py and tools/respell.py ran. Both kept the files of specs/ and
proofs/ and the order of what stands in them, so the two lists of names defined in a file say what each name became. What stands in backquotes in
README.md and below docs/ (but in docs/PORT.md) is respelled so; a name that became two different ones is told by the file behind it, as in
`in-order` in `pairs/proofs/Order`, and stays where none is named. With --list it prints, for each file, what became what, and changes nothing.
"""
import collections
import glob
import re
import subprocess
import sys

TOKEN = re.compile(r"[^\s(){}\[\].,;:\"«»`|/]+")
# A name of the older library, where a page speaks of it.
OF_LIBRARY = {"getD": "get_or"}


def git(*words):
    return subprocess.run(["git", *words], stdout=subprocess.PIPE, check=True, encoding="utf-8").stdout


def defined(text):
    """Returns the names that a file of definitions or proofs defines, in their order."""
    found = []
    for line in text.split("\n"):
        line = line.strip()
        while re.match(r"(abbrev|unfoldable|pub) ", line):
            line = line.split(" ", 1)[1].lstrip()
        words = line.split()
        if line.startswith("--") or len(words) < 2:
            continue
        if words[0] in ("record", "data"):
            found.append(words[1])
        elif words[1] == ":":
            found.append(words[0])
    return found


def renamed(before, after):
    """Returns what became what, by file."""
    turned = {}
    for file in git("ls-tree", "-r", "--name-only", before, "crates").split("\n"):
        if file.endswith(".antt"):
            old, new = (defined(git("show", f"{it}:{file}")) for it in (before, after))
            if len(old) != len(new):
                raise SystemExit(f"respell_pages: {file} has {len(old)} names before the port and {len(new)} after it")
            turned[file] = {one: other for one, other in zip(old, new) if one != other}
    return turned


def file_of(word):
    """Returns the file that a word on a page stands for, as .ci/compare/pages reads it."""
    parts = word.split("/")
    if parts[0] == "crates":
        return word
    if len(parts) > 2 and parts[1] == "proofs":
        return f"crates/{word}.antt"
    return f"crates/{parts[0]}/specs/{parts[1]}.antt" if len(parts) > 1 else ""


def main(words):
    before, after = open("docs/PORT.md", encoding="utf-8").read().split("\n")[:2]
    turned = renamed(before, after)
    if words == ["--list"]:
        for file, names in turned.items():
            for one, other in names.items():
                print(f"{file}: {one} -> {other}")
        return
    every = collections.defaultdict(set)
    for names in turned.values():
        for one, other in names.items():
            every[one].add(other)
    several = {it for it in every if len(every[it]) > 1}
    changed = 0

    def respelled(pieces, at):
        """Returns a piece that stands in backquotes, by the file behind it where that matters."""

        def one(found):
            nonlocal changed
            name = found.group(0)
            if name in several:
                files = [it for it in pieces[at + 2 :: 2] if "/" in it]
                new = turned.get(file_of(files[0]), {}).get(name, name) if files else name
            else:
                new = next(iter(every.get(name, ())), OF_LIBRARY.get(name, name))
            changed += new != name
            return new

        # (a path names files and edits, which kept their names)
        text = pieces[at]
        return text if re.fullmatch(r"[A-Za-z_0-9.]+/[A-Za-z_0-9./-]+", text) else TOKEN.sub(one, text)

    for page in ["README.md", *sorted(glob.glob("docs/**/*.md", recursive=True))]:
        if page == "docs/PORT.md":
            continue
        text = open(page, encoding="utf-8").read()
        # (a fenced example holds no names)
        parts = re.split(r"(?m)(^```.*?^```)", text, flags=re.S)
        for number in range(0, len(parts), 2):
            pieces = parts[number].split("`")
            pieces[1::2] = [respelled(pieces, at) for at in range(1, len(pieces), 2)]
            parts[number] = "`".join(pieces)
        new = "".join(parts)
        if new != text:
            open(page, "w", encoding="utf-8").write(new)
    print(f"respell_pages: {changed} names")


main(sys.argv[1:])
