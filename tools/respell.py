#!/usr/bin/env python3
"""Brings the names that specs/ and proofs/ define to today's spelling: words in snake case, types in camel case.

usage: python3 tools/respell.py [REPOSITORY]

Run once, after the kit's port.py. Names that the toolchain makes (goals, labels) and names of its library are left as
they are, and so are functions of src/, comments, strings, inputs and outputs. It stops, and writes nothing, where two names
would fall together.
"""

import os
import re
import sys

TOKEN = re.compile(r"[^\W\d][\w'′]*(?:-[\w'′]+)*")
DEFINED = re.compile(r"^\s*(?:(?:pub|abbrev|unfoldable|data|record|mutual|instance)\s+)*([^\W\d][\w'′]*(?:-[\w'′]+)+)\s*(?::|\(|\{)")
BINDING = re.compile(r"^\s*let\s+([^\W\d][\w'′]*(?:-[\w'′]+)+)\s*(?::|=)")
IMPORT = re.compile(r"^\s*(?:ghost\s+)?(?:pub\s+)?use\s+([^\s{;]+?)\.?(?:\{(.*?)\})?\s*;?\s*$")
ALIAS = re.compile(r"\bas\s+([^\W\d][\w'′]*(?:-[\w'′]+)+)")
# Spelled straight on, these would fall together with words of the library.
OTHERWISE = {"bit-and": "bit_of_and", "bit-or": "bit_of_or"}
COMMENT = {".antt": re.compile(r"(?:^|(?<=\s))--.*"), ".rt": re.compile(r"//.*|\"(?:[^\"\\]|\\.)*\"")}


def texts(root):
    for folder, dirs, files in os.walk(os.path.join(root, "crates")):
        dirs[:] = sorted(d for d in dirs if d not in ("out", "must-fail"))
        for name in sorted(files):
            if name.endswith((".antt", ".rt")):
                yield os.path.join(folder, name)


def lemma_file(root, path):
    parts = os.path.relpath(path, root).split(os.sep)
    return path.endswith(".antt") and (parts[2] == "specs" or len(parts) == 4)


def respelled(name):
    if name in OTHERWISE:
        return OTHERWISE[name]
    words = name.replace("′", "'").split("-")
    if name[0].isupper():
        return words[0] + "".join(w[:1].upper() + w[1:] for w in words[1:])
    return "_".join(words)


def plain(path, line):
    return COMMENT[os.path.splitext(path)[1]].sub("", line)


def foreign(lines, own):
    """Hyphened names that a file imports from elsewhere than the repository's crates."""
    found = set()
    for line in lines:
        m = IMPORT.match(line)
        if m and m[2] and not any(m[1].startswith(f"Rattle.{c}.") for c in own):
            found.update(TOKEN.findall(m[2]))
    return found


def main():
    root = sys.argv[1] if len(sys.argv) > 1 else "."
    own = os.listdir(os.path.join(root, "crates"))
    files = {p: open(p, encoding="utf-8").read().split("\n") for p in texts(root)}
    defined, standing = set(), set()
    for path, lines in files.items():
        for line in lines:
            code = plain(path, line)
            standing.update(TOKEN.findall(code))
            if lemma_file(root, path):
                for form in (DEFINED, BINDING):
                    if m := form.match(code):
                        defined.add(m[1])
                if IMPORT.match(code):
                    defined.update(ALIAS.findall(code))
    to = {n: respelled(n) for n in sorted(defined)}
    back = {}
    for old, new in to.items():
        back.setdefault(new, []).append(old)
    clash = [f"{new}: {', '.join(olds)}" for new, olds in back.items() if len(olds) > 1]
    both = sorted(n for n in back if n in standing)
    if both:
        print("these stand already, and should mean the same or lie apart:", ", ".join(both))
    if clash:
        print("fall together:", *clash, sep="\n  ")
        raise SystemExit(1)
    changed = 0
    for path, lines in files.items():
        names = {n: t for n, t in to.items() if n not in foreign(lines, own)}
        skip = COMMENT[os.path.splitext(path)[1]]

        def turn(text):
            text = TOKEN.sub(lambda m: names.get(m[0], m[0]), text)
            return re.sub(r"«(\w+_\w+)»", r"\1", text)

        out = []
        for line in lines:
            last, parts = 0, []
            for m in skip.finditer(line):
                parts += [turn(line[last : m.start()]), m[0]]
                last = m.end()
            out.append("".join(parts) + turn(line[last:]))
        if out != lines:
            changed += 1
            with open(path, "w", encoding="utf-8") as f:
                f.write("\n".join(out))
    print(f"{len(to)} names respelled in {changed} files")


main()
