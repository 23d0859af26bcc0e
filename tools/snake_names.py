#!/usr/bin/env python3
"""Brings the repository's own definitions and lemmas to snake case, as the library's are.

usage: python3 tools/snake_names.py        at the top, once, after port.py

Each name of specs/ and proofs/ that is in lower camel case, as tableSectors, becomes table_sectors, also as a part of a lemma's name
between hyphens. It is turned in proof files, in the sources (where no other name has that form), in must-fail edits and in the edits of
definitions. Where a name falls together with another one, the check says so, and one of them is renamed by hand (docs/PORT.md).
"""
import os
import re

# A name of the library, in names of lemmas, and what it is called today.
APART = {"getD": "get_or"}
FOLDERS = ("crates", "host/definition-edits/edits")
ENDS = (".rt", ".antt", ".edit", ".edits")
WORD = re.compile(r"(?<![A-Za-z0-9_'\u2080-\u2089])[a-z][a-z0-9]*(?:[A-Z][a-z0-9]*)+(?![A-Za-z0-9_])")


def snake(name):
    return APART.get(name) or re.sub(r"[A-Z]", lambda m: "_" + m.group(0).lower(), name)


def texts():
    for top in FOLDERS:
        for folder, dirs, files in os.walk(top):
            dirs[:] = sorted(d for d in dirs if d != "out")
            for f in sorted(files):
                if f.endswith(ENDS):
                    yield os.path.join(folder, f)


def main():
    turned = 0
    for path in texts():
        with open(path, encoding="utf-8") as f:
            old = f.read()
        new = WORD.sub(lambda m: snake(m.group(0)), old)
        if new != old:
            with open(path, "w", encoding="utf-8") as f:
                f.write(new)
            turned += 1
    print(f"{turned} files")


main()
