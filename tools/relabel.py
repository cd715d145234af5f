#!/usr/bin/env python3
"""Turns the labels of goals and places in proof files to those that the toolchain makes today, where they differ in - and _ alone.

usage: python3 tools/relabel.py CRATE..          in the repository
"""

import json
import os
import re
import shutil
import subprocess
import sys
import tempfile

TOKEN = re.compile(r"[^\W\d][\w']*(?:[-·][\w']+)*")


def strings(value):
    if isinstance(value, str):
        yield value
    elif isinstance(value, dict):
        for v in value.values():
            yield from strings(v)
    elif isinstance(value, list):
        for v in value:
            yield from strings(v)


def labels(function):
    """The labels of today of one function: the second of each pair, and what stands by name."""
    for _, new in function["needs"] + function["asked_at"]:
        yield new
    for place in function["places"]:
        yield place[2][1]
    for loop in function["loops"]:
        yield loop[0][1]
    yield from strings(function["places_by_name"])
    yield from (name.split("::")[-1] for name in function["params"])


def folded(name):
    return name.replace("_", "-").replace("·", "-").lower()


def turn(path, today):
    """Turns one file, and returns whether it changed and which names fit more than one label."""
    by_fold = {}
    for name in today:
        for form in (name, name[:1].lower() + name[1:]):
            by_fold.setdefault(folded(form), set()).add(form)
    with open(path, encoding="utf-8") as f:
        text = f.read()
    said = set()

    def one(m):
        old = m[0]
        fits = by_fold.get(folded(old), set())
        if not fits or old in fits:
            return old
        fits = [x for x in fits if x[:1].islower() == old[:1].islower()]
        if len(fits) != 1:
            said.add(f"{path}: {old}: {sorted(fits)}")
            return old
        return fits[0]

    out = TOKEN.sub(one, text)
    if out != text:
        with open(path, "w", encoding="utf-8") as f:
            f.write(out)
    return out != text, said


def main():
    for crate in sys.argv[1:]:
        top = tempfile.mkdtemp()
        folder = os.path.join("crates", crate)
        subprocess.run(["rt", "check", "--generated", top, "--old-names"], cwd=folder, stdout=subprocess.DEVNULL, stderr=subprocess.DEVNULL)
        with open(os.path.join(top, "names.json"), encoding="utf-8") as f:
            names = json.load(f)
        shutil.rmtree(top)
        changed, missed = 0, []
        for key, function in names.items():
            parts = key.split(".")[1:-1]
            for name in ("Answers.antt", "Invariants.antt"):
                path = os.path.join(folder, "proofs", *parts, name)
                if os.path.exists(path):
                    did, said = turn(path, set(labels(function)))
                    changed += did
                    missed += said
        print(f"{crate}: {changed} files changed", *sorted(missed), sep="\n  ")


main()
