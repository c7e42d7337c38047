#!/usr/bin/env python3
"""Brings the names of the repository's own definitions and lemmas to snake case.

usage: tools/respell.py [--check]       at the top of the repository, once, right after the port's scripts

Renamed are the names that a file of crates/*/specs or crates/*/proofs declares: definitions, lemmas,
constructors and fields that begin with a small letter. `freeWord` becomes `free_word`, and a lemma
`free-word` too, or `free_word_lem` beside that definition. Types keep their capitals; functions of
src/ and names that the toolchain makes keep theirs. The same names are turned in contracts, in the
wrong programs (*.edit), and between backticks in README.md and docs/. --check writes nothing.
"""

import os
import re
import sys

WORD = r"[^\W\d][\w'′₀-₉ᴰ]*(?:[-·+][\w'′₀-₉ᴰ]+)*"
TOKEN = re.compile(r"(?<![\w'′·-])" + WORD + r"(?![\w'′·-])")
HEAD = re.compile(r"^ *(?:(?:unfoldable|abbrev|pub|data|record|ruleset) +)*(" + WORD + r")(?: +\{[^}]*\})?(?: +\([^)]*\)| +\{[^}]*\})* *:(?= |$)")
# Names that the port's scripts turned, where a library has the spelling: the old name, then the new one.
TURNED_FIRST = """addA all allBytes allOf answerOf anyOf asNumber bitOf bodyOf byteAt bytesOf callIn callOf effectOf fieldAt fieldOf groupsOf imageOf
isWritten keyAt laneOf lengthOf lineOf linesOf linkAt linkOf liveAfter liveOf noField noLink noWord nodeOf numberIn placeOf putAt sameList slotAt
slotsOf storedAt upTo valuesOf viewOf wayOf waysOf withNumber wordOf writtenOf""".split()


def snake(name):
    name = re.sub(r"(?<=[a-z0-9])(?=[A-Z])", "_", name).lower() if re.search(r"[a-z0-9][A-Z]", name) else name
    return name.replace("-", "_")


def read(path):
    with open(path, encoding="utf-8", newline="") as f:
        return f.read()


def files(ends, *tops):
    for top in tops:
        if os.path.isfile(top):
            yield top
        for folder, dirs, names in os.walk(top):
            dirs[:] = sorted(d for d in dirs if d not in ("out", ".git", "target"))
            for name in sorted(names):
                if name.endswith(ends):
                    yield os.path.join(folder, name)


def is_walk(path):
    """A proof of one function: its names are the toolchain's or its own, and another file never cites them."""
    return os.path.basename(path) == "Proof.antt"


def code(text):
    """The text without comments."""
    return re.sub(r"--[^\n]*", "", text)


def declared():
    names = set()
    for path in files(".antt", "crates"):
        if is_walk(path):
            continue
        for line in code(read(path)).split("\n"):
            found = HEAD.match(line)
            if found:
                names.add(found.group(1))
    return {n for n in names if n[0].islower()}


def main(argv):
    table = {n: snake(n) for n in declared() if snake(n) != n}
    antt = [p for p in files(".antt", "crates")]
    seen = {}
    for path in antt:
        if is_walk(path):
            continue
        text = re.sub(r"\.proofs\.\+?\w+(?=\.|$)", ".proofs", code(read(path)))
        for name in TOKEN.findall(text):
            seen.setdefault(name, path)
    fields = set()
    for path in files(".rt", "crates"):
        text = read(path)
        fields |= set(re.findall(r"^\s*(?:pub )?(\w+): ", text, re.M)) | set(re.findall(r"[(,] ?(?:mut )?(\w+): ", text)) | set(re.findall(r"let (?:mut )?(\w+)", text))
    names = declared()
    by_new = {}
    for old, new in sorted(table.items()):
        by_new.setdefault(new, []).append(old)
    for new, olds in sorted(by_new.items()):
        # A definition has the name itself, and a lemma of the same words `_lem` after it.
        defined = [o for o in olds if "-" not in o]
        for old in olds:
            if "-" in old and (defined or new in seen or new in fields):
                table[old] = new + "_lem"
        if defined and new in names:
            table[new] = new + "_lem"
        elif defined and (new in seen or new in fields):
            print(f"left: {defined[0]}: {new} is there: {seen.get(new, 'src/')}")
            del table[defined[0]]
    if len(set(table.values())) != len(table) or set(table.values()) & (set(seen) - set(table)):
        raise SystemExit(f"names fall together: {sorted(set(table.values()) & (set(seen) - set(table)))}")
    camel = {o: n for o, n in table.items() if re.search(r"[A-Z]", o)}
    turned = camel | {n: snake(n) for n in TURNED_FIRST if snake(n) != n}

    def turn(text, names):
        return TOKEN.sub(lambda m: names.get(m.group(0), m.group(0)), text)

    changed = 0
    for path in files((".antt", ".rt", ".edit", ".md"), "crates", "README.md", "docs"):
        old = read(path)
        if path.endswith(".antt"):
            new = turn(old, table)
        elif path.endswith(".rt"):
            new = turn(old, camel)
        elif path.endswith(".edit"):
            new = turn(old, turned)
        else:
            new = re.sub(r"`[^`\n]+`", lambda m: turn(m.group(0), turned | table), old)
        if new != old:
            changed += 1
            if "--check" not in argv:
                with open(path, "w", encoding="utf-8", newline="") as f:
                    f.write(new)
    print(f"respell: {len(table)} names, {changed} files")


if __name__ == "__main__":
    main(sys.argv[1:])
