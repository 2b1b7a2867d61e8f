#!/usr/bin/env python3
"""Names of the repository's own in lower camel case, as `firstSupport`, become snake case, as `first_support`.

usage: tools/respell.py [--dry] [FOLDER]     once, at the top of a checkout that port.py has turned

Turned are the names in .antt files, in the ghost parts of .rt files and in must-fail edits; strings stay. Rust's names are in snake case
already, and exported C names have no capitals. Where a new name stands in the file already, a line says so; nothing is written then.
"""
import os
import re
import sys

WORD = r"[\w'₀-₉]"
NAME = re.compile(rf"(?<![\w'·₀-₉])(?<!\w-)[a-z]{WORD}*(?:-(?:{WORD}|[+*≤<])+)*")
CAMEL = re.compile(r"(?<=[a-z0-9])(?=[A-Z])")
PART = re.compile(rf"[A-Za-z]{WORD}*")

# A new name that stands in a file already, and does no harm there: the record's parameter of that name hides nothing that the record speaks of.
HARMLESS = {("crates/theorems/specs/ByteCalls.antt", "is_whole")}


def snake(part):
    if not re.match(r"[a-z]", part) or not CAMEL.search(part):
        return part
    return CAMEL.sub("_", part).lower()


def turned(name):
    # a type that begins a part keeps its spelling
    return "-".join(snake(p) for p in name.split("-"))


def texts(root):
    for folder, dirs, files in os.walk(os.path.join(root, "crates")):
        dirs[:] = sorted(d for d in dirs if d not in ("out", "target"))
        for f in sorted(files):
            if f.endswith((".antt", ".rt", ".edit")):
                yield os.path.join(folder, f)


STRING = re.compile(r'b?"(?:[^"\\\n]|\\.)*"')


def turn(text, strings):
    """The text with its names turned, and the names that were."""
    seen = {}

    def one(m):
        new = turned(m.group(0))
        if new != m.group(0):
            seen[m.group(0)] = new
        return new

    if not strings:
        return NAME.sub(one, text), seen
    out, at = [], 0
    for m in STRING.finditer(text):
        out += [NAME.sub(one, text[at : m.start()]), m.group(0)]
        at = m.end()
    out.append(NAME.sub(one, text[at:]))
    return "".join(out), seen


def main(argv):
    dry = "--dry" in argv
    rest = [a for a in argv if a != "--dry"]
    root = rest[0] if rest else "."
    met, written = 0, []
    for p in texts(root):
        with open(p, encoding="utf-8") as f:
            text = f.read()
        new, seen = turn(text, not p.endswith(".antt"))
        bare = re.sub(r"--[^\n]*", "", text) if p.endswith(".antt") else text
        there = {m.group(0) for m in NAME.finditer(bare) if bare[max(0, m.start() - 1) : m.start()] != "."}
        for old, name in sorted(seen.items()):
            if (os.path.relpath(p, root), name) in HARMLESS:
                continue
            if p.endswith(".antt") and name in there:
                met += 1
                print(f"{p}: {old} becomes {name}, which stands there already")
            if p.endswith(".rt") and re.search(rf"(?<![\w.]){re.escape(name)}\s*:(?!:)", text):
                met += 1
                print(f"{p}: {old} becomes {name}, which is a parameter or field there")
        if new != text:
            written.append((p, new))
    if not dry and not met:
        for p, new in written:
            with open(p, "w", encoding="utf-8") as f:
                f.write(new)
    print(f"respell: {len(written)} files{'' if not dry and not met else ' would change'}, {met} names fall together")
    return 1 if met else 0


if __name__ == "__main__":
    raise SystemExit(main(sys.argv[1:]))
