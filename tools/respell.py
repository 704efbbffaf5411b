#!/usr/bin/env python3
"""Brings the repository's own definitions, lemmas and local names to snake case.

port.py respells only names that today's library has too; this turns the others: a name that begins with a small
letter and has a capital inside, as `storeLength`, becomes `store_length`, also as a part of a name with dashes, as in
`handOver-length`. Rust's names have no such form, so sources change in their clauses, imports and comments alone.
Must-fail edits and pages get the same spelling of these names.

Run once, at the top, after port.py.
"""

import pathlib
import re
import subprocess

TOP = pathlib.Path(__file__).resolve().parent.parent
WORD = re.compile(r"\b[a-z][a-z0-9]*[A-Z][A-Za-z0-9]*")


def snake(match):
    name = match.group(0)
    name = re.sub(r"(?<=[a-z0-9])(?=[A-Z])", "_", name)
    return re.sub(r"(?<=[A-Z])(?=[A-Z])", "_", name).lower()


def words(path):
    return set(WORD.findall(path.read_text()))


def main():
    names = subprocess.run(["git", "ls-files"], cwd=TOP, capture_output=True, text=True, check=True).stdout.split("\n")
    files = [TOP / name for name in names if name]
    code = [f for f in files if f.suffix in (".antt", ".rt") and "crates" in f.parts]
    own = set().union(*(words(f) for f in code))
    turned = 0
    for file in files:
        if file not in code and file.suffix not in (".edit", ".md"):
            continue
        text = file.read_text()
        new = WORD.sub(lambda m: snake(m) if m.group(0) in own else m.group(0), text)
        if new != text:
            file.write_text(new)
            turned += 1
    print(f"respell: {len(own)} names in {turned} files")


main()
