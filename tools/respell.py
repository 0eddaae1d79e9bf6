#!/usr/bin/env python3
"""Brings the repository's own names to one spelling: words in snake case.

usage: python3 tools/respell.py [ROOT]      run once, right after the toolchain's port.py

It goes by text over specs/, proofs/, src/, must-fail/, README.md and docs/. A part of a name (names are joined by '-') that is in
lower camel case becomes snake case: `stageTime` is `stage_time`, `before-ifNever` is `before-if_never`. Names with a dash that stand in
specs/ (fields of records and steps of a reading) become snake case: `left-at-exit` is `left_at_exit`. Functions and types of the code are
left alone: they have no such parts. A new name that stood in a file before is reported, since two names may have fallen together there.
"""

import os
import re
import sys

# the library's own new words, where plain snake case would be another name
SPECIAL = {"getD": "get_or", "flatMap": "flat_map"}

# lemmas whose names would fall together with that of a definition which their file has or imports: the lemma gets `_lem`
LEMMAS = {
    "crates/calls/proofs/Lasts.antt": "rows_left",
    "crates/calls/proofs/WriteLaws.antt": "no_room",
    "crates/format/proofs/PlaceLaws.antt": "count_by",
    "crates/meaning/proofs/RowLaws.antt": "same_key",
}

# what looks like a lower camel name and is none: digits of a number
NOT_NAMES = re.compile(r"x[0-9A-F]+$")

NAME = re.compile(r"[A-Za-z_][\w'₀-₉ᴰ]*(?:-[\w'₀-₉ᴰ]+)*")


def snake(part):
    if part in SPECIAL:
        return SPECIAL[part]
    if not part[:1].islower() or not re.search(r"[a-z0-9][A-Z]", part) or NOT_NAMES.match(part):
        return part
    return re.sub(r"(?<=[a-z0-9])([A-Z])", lambda m: "_" + m.group(1).lower(), part).lower() if part.isascii() else part


def dashed_names(root):
    found = set()
    for path in files(root):
        if "/specs/" in path and path.endswith(".antt"):
            with open(path, encoding="utf-8") as f:
                text = re.sub(r"--.*", "", f.read())
            found |= {m.group(0) for m in NAME.finditer(text) if "-" in m.group(0) and not m.group(0)[0].isupper()}
    return found


def files(root):
    for folder, dirs, names in os.walk(os.path.join(root, "crates")):
        dirs[:] = sorted(d for d in dirs if d not in ("out", "data"))
        for n in sorted(names):
            if n.endswith((".antt", ".rt", ".edit")):
                yield os.path.join(folder, n)


def papers(root):
    yield os.path.join(root, "README.md")
    for n in sorted(os.listdir(os.path.join(root, "docs"))):
        if n.endswith(".md") and not n.startswith("PORT"):
            yield os.path.join(root, "docs", n)


def main(root):
    dashed = dashed_names(root)

    def turn(m):
        name = m.group(0)
        whole = "_".join(snake(p) for p in name.split("-"))
        return whole if name in dashed else "-".join(snake(p) for p in name.split("-"))

    changed = 0
    for path in list(files(root)) + list(papers(root)):
        with open(path, encoding="utf-8") as f:
            text = f.read()
        lemma = LEMMAS.get(os.path.relpath(path, root))
        if lemma:
            text = NAME.sub(lambda m: lemma + "_lem" if m.group(0) == lemma else m.group(0), text)
        pattern = NAME if not path.endswith(".md") else re.compile(r"(?<=`)[^`\n]+(?=`)")
        new = pattern.sub(turn, text) if pattern is NAME else pattern.sub(lambda m: NAME.sub(turn, m.group(0)), text)
        if new != text:
            before = {m.group(0) for m in NAME.finditer(text)}
            for n in sorted({m.group(0) for m in NAME.finditer(text)}):
                t = turn(NAME.match(n))
                if t != n and t in before:
                    print(f"look: {os.path.relpath(path, root)}: {n} became {t}, which stood there before")
            with open(path, "w", encoding="utf-8") as f:
                f.write(new)
            changed += 1
    print(f"respell: {changed} files changed")


if __name__ == "__main__":
    main(os.path.abspath(sys.argv[1] if len(sys.argv) > 1 else "."))
