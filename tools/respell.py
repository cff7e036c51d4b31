#!/usr/bin/env python3
"""Brings the repository's own definitions and lemmas to today's spelling: words in snake case. Run once, behind the toolchain's port.py, at the top.

usage: python3 tools/respell.py

A word that begins with a small letter and has a capital inside, as `sizeRefusalsIn`, becomes `size_refusals_in`, in specs/, proofs/, src/ and must-fail/;
the dashes that join the words of a lemma's name stay. Strings keep their text. A lemma that would get the name of the definition that it is about ends in `_lem`.
A definition may be named as the function that computes it: the two are never named in one place. Others that would fall together are listed, and nothing is written.
At the end the files are laid out.
"""

import os
import re
import subprocess
import sys

WORD = re.compile(r"\"(?:\\.|[^\"\\\n])*\"|(?<![\w'])[a-z][\w']*(?:-[\w']+)*")
# Lemmas whose names their definitions get: `record_of` says what `recordOf` is.
LEMMAS = re.compile(r"(?<![\w'-])(record_of|fits_in|hands_out|is_free|span_key)(?![\w'-])")
DECLARED = re.compile(r"(?m)^ *(?:abbrev |unfoldable |pub )*([a-z][\w']*) :")
FUNCTION = re.compile(r"\bfn ([a-z]\w*)")


def snake(part):
    if not re.match(r"[a-z]\w*[A-Z]", part):
        return part
    return re.sub(r"(?<=[a-z0-9])([A-Z])", lambda m: "_" + m.group(1).lower(), part)


def turned(text, seen=None):
    def one(m):
        word = m.group()
        if word.startswith('"'):
            return word
        new = "-".join(snake(p) for p in word.split("-"))
        if seen is not None:
            seen.setdefault(new, set()).add(word)
        return new

    return WORD.sub(one, text)


def files():
    for folder, dirs, names in os.walk("crates"):
        dirs[:] = sorted(d for d in dirs if d != "out")
        for n in sorted(names):
            if n.endswith((".rt", ".antt", ".edit")):
                yield os.path.join(folder, n)


def main():
    if not os.path.isfile("crates.txt"):
        sys.exit("respell: run it at the top of the repository")
    seen = {}
    texts = {}
    declared, functions = set(), set()
    for p in files():
        with open(p, encoding="utf-8") as f:
            text = f.read()
        texts[p] = text
        if p.endswith(".edit") and "file: specs/" in text:
            text = re.sub(r"(?<=[\w)']) \.(?=\w)", ".", text.replace("getD", "get_or"))
        if p.endswith(".antt"):
            text = LEMMAS.sub(r"\1_lem", text)
            declared |= set(DECLARED.findall(text))
        functions |= set(FUNCTION.findall(text))
        turned(text, seen)
        texts[p] = (texts[p], text)
    together = {new: olds for new, olds in seen.items() if len(olds) > 1 and (new in declared or new not in functions)}
    if together:
        for new, olds in sorted(together.items()):
            print(f"respell: {', '.join(sorted(olds))} would all be {new}")
        sys.exit(1)
    changed = 0
    for p, (old, text) in texts.items():
        new = turned(text)
        if new != old:
            changed += 1
            with open(p, "w", encoding="utf-8") as f:
                f.write(new)
    for c in sorted(os.listdir("crates")):
        subprocess.run(["rt", "fmt"], cwd=os.path.join("crates", c), check=True, stdout=subprocess.DEVNULL)
    print(f"respell: {changed} files changed")


main()
