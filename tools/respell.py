#!/usr/bin/env python3
"""Brings the repository's own names in crates/ to today's spelling: words of definitions, lemmas and fields in snake case.

usage: tools/respell.py [FOLDER]    once, in a tree whose files the kit's port.py has just turned; then rt fmt in each crate

A name of the old spelling is one like headerSize, and becomes header_size; the parts of a name joined by dashes turn each by
itself. Where a lemma or a local name has the new spelling of a definition already, it gets another name first (CLASHES), so that
no two fall together. Functions of src/, exported names and strings have no such names and stay.
"""

import os
import re
import sys

OLD = re.compile(r"(?<![A-Za-z0-9_'])[a-z][a-z0-9]*(?:[A-Z][a-z0-9]*)+(?![A-Za-z0-9_])")
# A name that a definition falls together with, what it becomes, and the files that have it.
CLASHES = [
    ("zero_in", "zero_in_lem", ["gsd_bytes/proofs/Zeros", "gsd_format/proofs/Bytes", "gsd_format/proofs/Fresh", "gsd_format/proofs/Segments"]),
    ("walk_end", "walk_end_lem", ["gsd_format/proofs/Search", "gsd_format/proofs/ReaderNumbers", "gsd_search/proofs/Progress"]),
    ("entries_by", "entries_by_lem", ["gsd_format/proofs/Readers"]),
    ("in_frame", "in_frame_lem", ["gsd_format/proofs/Search"]),
    ("namesAt", "names_stand", ["gsd_places/proofs/find_sites/Proof"]),
    ("indexAt", "index_stands", ["gsd_places/proofs/find_sites/Proof"]),
]


def snake(name):
    return re.sub(r"[A-Z]", lambda m: "_" + m.group().lower(), name)


def files(top, endings):
    for folder, inside, names in os.walk(os.path.join(top, "crates")):
        inside[:] = sorted(n for n in inside if n != "out")
        for name in sorted(names):
            if name.endswith(endings):
                yield os.path.join(folder, name)


def old_names(top):
    """The names of the old spelling that stand outside comments in the files of specs/ and proofs/."""
    found = set()
    for path in files(top, ".antt"):
        with open(path, encoding="utf-8") as f:
            for line in f:
                found.update(OLD.findall(line.split("-- ")[0]))
    return found


def main():
    top = sys.argv[1] if len(sys.argv) > 1 else "."
    for name, new, places in CLASHES:
        for place in places:
            path = os.path.join(top, "crates", place + ".antt")
            with open(path, encoding="utf-8") as f:
                text = f.read()
            turned = re.sub(r"(?<![\w'.-])" + name + r"(?![\w'-])", new, text)
            if turned == text:
                sys.exit(f"respell: {path} has no {name}")
            with open(path, "w", encoding="utf-8") as f:
                f.write(turned)
    turn = {name: snake(name) for name in old_names(top)}
    for path in files(top, (".antt", ".rt")):
        with open(path, encoding="utf-8") as f:
            text = f.read()
        turned = OLD.sub(lambda m: turn.get(m.group(), m.group()), text)
        if turned != text:
            with open(path, "w", encoding="utf-8") as f:
                f.write(turned)
    print(f"respell: {len(turn)} names")


main()
