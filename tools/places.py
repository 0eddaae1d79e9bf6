#!/usr/bin/env python3
"""Counts the places that docs/DESIGN-PASS.md lists: tools/places.py [COMMIT], without one in the files as they stand."""
import collections
import pathlib
import re
import subprocess
import sys

COMMIT = sys.argv[1] if len(sys.argv) > 1 else None


def git(*words):
    return subprocess.run(["git", *words], capture_output=True, text=True, check=True).stdout


def sources():
    if COMMIT:
        names = git("ls-tree", "-r", "--name-only", COMMIT).split()
    else:
        names = git("ls-files", "--cached", "--others", "--exclude-standard").split()
    for name in sorted(names):
        if re.match(r"crates/\w+/src/.*\.rt$", name):
            if COMMIT:
                yield name, git("show", f"{COMMIT}:{name}")
            elif pathlib.Path(name).exists():
                yield name, pathlib.Path(name).read_text()


# What is counted: the point, a name, and a pattern of one place in a line.
LINES = [
    (1, "enums", r"^ *(pub(\(crate\))? )?enum \w+"),
    (1, "variants that say 'nothing'", r"^ +(Nothing|Nowhere|Never|NotA\w+|Unknown|Endless|Refused\(.*|Accepted|Neither),$"),
    (1, "flags in a struct", r"^ +(pub(\(crate\))? )?\w+: bool,"),
    (1, "numbers of one byte with a name", r"^ *(pub(\(crate\))? )?const [A-Z_]+: u8 = "),
    (1, "a place or a value that stands for none", r"return (nothing|NO_\w+|ATTRIBUTES);|^ +(ATTRIBUTES|NO_DIGIT)$|=> NO_DIGIT"),
    (3, "while loops", r"\bwhile\b"),
    (4, "casts", r" as (u8|u16|u32|u64|usize|isize)\b"),
    (4, "functions that print", r"\bfn (say|show|print)\w*\("),
    (6, "arrays", r"\[[\w:]+; [\w:]+\]"),
    (7, "matches on what is to be done", r"\bmatch (question|fault|needed|ask)\b"),
]
GROUPS = [
    ("terms", "log", "table"),
    ("terms", "kinds", "starts"),
    ("text", "from"),
    ("at", "items"),
    ("create", "detach", "consequent"),
    ("lower", "upper"),
]
FACTS = ["Ready", "Kinds", "KindsIn", "Read", "Placed", "Stands", "Indexed", "LaidOut", "Posed", "table_length", "kinds ≡ length"]
SIGNATURE = re.compile(r"\bfn (\w+)(?:<[^>]*>)?\(([^{]*?)\)\s*(?:->|requires|ensures|where|\{)", re.S)


def main():
    lines, together, facts, shown = (collections.Counter(), collections.Counter(), collections.Counter(), "-v" in sys.argv)
    for name, text in sources():
        for row in text.split("\n"):
            for point, what, pattern in LINES:
                if re.search(pattern, row) and not row.strip().startswith("//"):
                    lines[point, what] += 1
            if re.match(r" *(requires|ensures)\b", row):
                for fact in FACTS:
                    if re.search(rf"(?<![\w.]){fact}\b", row):
                        facts[fact] += 1
        for found in SIGNATURE.finditer(text):
            given = re.findall(r"(\w+): ", found.group(2))
            for group in GROUPS:
                if all(word in given for word in group):
                    together[group] += 1
    for (point, what) in [(p, w) for p, w, _ in LINES]:
        print(f"{point}  {lines[point, what]:4}  {what}")
    for group in GROUPS:
        print(f"5  {together[group]:4}  functions that take {', '.join(group)}")
    for fact in FACTS:
        print(f"5  {facts[fact]:4}  clauses that say {fact}")


main()
