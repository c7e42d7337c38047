#!/usr/bin/env python3
"""Brings the wrong programs, crates/*/must-fail and crates/*/wrong, to the spelling of the files that they apply to.

usage: tools/respell_edits.py      at the top of the repository, once, after tools/respell.py

Only an edit whose text no longer stands is touched: projections are written tight, primes as apostrophes, holes of operators
as circles, and paths without a middle dot. What still doesn't fit is printed, and left to be mended by hand.
"""

import glob
import os
import re


def read(path):
    with open(path, encoding="utf-8", newline="") as f:
        return f.read()


def misfit(path, text):
    """The first `old:` text that does not stand exactly once, with its file; or None."""
    crate, file, texts, old = os.path.dirname(os.path.dirname(path)), None, {}, None
    for line in text.split("\n"):
        if line.startswith("file: "):
            file = line[6:].strip()
            texts.setdefault(file, read(f"{crate}/{file}"))
        elif line.startswith("old: "):
            old = line[5:]
        elif line.startswith("new:"):
            if texts[file].count(old) != 1:
                return file, old
            texts[file] = texts[file].replace(old, line[4:].removeprefix(" "))
    return None


def respell(line):
    line = re.sub(r"\((\w+'?) \.(\w+)\)", r"\1.\2", line)
    line = re.sub(r"(?<=[\w)]) \.(?=[a-z0-9])", ".", line)
    line = line.replace("′", "'").replace("getD", "get_or").replace("in-0", "in_0")
    line = re.sub(r"Rattle·(\w+)·(specs|proofs)\.\2", r"Rattle.\1.\2", line)
    line = re.sub(r"Rattle·(\w+)", r"Rattle.\1", line)
    if line.startswith(("old: use ", "new: use ")):
        line = re.sub(r"(?<=[{ ])_(\S)_(?=[,}])", r"◌\1◌", line)
    return line


def main():
    for path in sorted(glob.glob("crates/*/must-fail/*.edit") + glob.glob("crates/*/wrong/*.edit")):
        old = read(path)
        if not misfit(path, old):
            continue
        new = "\n".join(respell(line) if line.startswith(("old: ", "new: ")) else line for line in old.split("\n"))
        if misfit(path, new):
            print(path, *misfit(path, new))
        with open(path, "w", encoding="utf-8", newline="") as f:
            f.write(new)


if __name__ == "__main__":
    main()
