#!/usr/bin/env python3
"""Respells this repository's own names as today's Rattle spells them, after port.py: definitions, fields, constructors and lemmas in
snake case, the proof of `f` as `f_spec`, a prime as an apostrophe. Run once, at the top: python3 tools/snake_case.py
Types and modules keep their names, and so does everything of src/ that is no clause; names of the toolchain are left alone."""
import os
import re
import sys

# A lemma whose name would fall together with a definition's is told apart.
APART = {"one_more": "one_more-law", "code_lines": "code_lines-law", "part_in": "part_in-law", "row_words": "row_words-law",
         "bit_mask": "bit_mask-law", "same_word": "same_word-law", "words_same": "words_same-law"}
OLDER = {"getD": "get_or"}
NAME = re.compile(r"(?<![\w'-])[A-Za-z_][\w'-]*")
CAMEL = re.compile(r"(?<=[a-z0-9'])([A-Z])(?![A-Z])|(?<=[a-z0-9'])([A-Z])$")


def respelled(name):
    if not re.match(r"[a-z]", name) or re.search(r"_[A-Z]", name) or not re.search(r"[A-Z]", name):
        return name
    parts = name.split("-")
    return "-".join(OLDER.get(p, re.sub(r"(?<=[a-z0-9'])([A-Z])", lambda m: "_" + m.group(1).lower(), p)) for p in parts)


def turned(path, text):
    name = os.path.basename(path)
    antt, edit = name.endswith(".antt"), name.endswith(".edit")
    text = text.replace("\u2032", "'")

    def one(m):
        word = m.group()
        new = respelled(word)
        if new == word and word in APART and (antt or edit) and lemma(path, word):
            return APART[word]
        return new

    text = NAME.sub(one, text)
    if "/proofs/" in path:
        for m in re.finditer(r"^pub ([\w-]+)-spec : \{M", text, re.M):
            text = re.sub(r"(?<![\w'-])" + re.escape(m.group(1)) + r"-spec(?![\w'-])", m.group(1).replace("-", "_") + "_spec", text)
    return text


LEMMAS = {}


def lemma(path, word):
    """Whether `word` in this file is the lemma and not the name of a call's step or of a function."""
    return LEMMAS.get((path, word), False)


def files(top):
    for folder, below, names in os.walk(os.path.join(top, "crates")):
        below[:] = [d for d in below if d != "out"]
        for n in sorted(names):
            if n.endswith((".antt", ".rt", ".edit")):
                yield os.path.join(folder, n)


def main(top):
    texts = {}
    for p in files(top):
        with open(p, encoding="utf-8") as f:
            texts[p] = f.read()
    # where each of the lemmas APART stands or is imported
    for p, t in texts.items():
        if p.endswith(".rt"):
            continue
        for w in APART:
            if re.search(r"(?m)^\s*(pub )?" + w + r" :", t) or re.search(r"(?m)^use .*\.\{[^}]*(?<![\w'-])" + w + r"(?![\w'-])", t):
                LEMMAS[(p, w)] = True
    changed = 0
    for p, t in texts.items():
        new = turned(p, t)
        if new != t:
            changed += 1
            with open(p, "w", encoding="utf-8") as f:
                f.write(new)
    print(f"{changed} files respelled")


if __name__ == "__main__":
    main(sys.argv[1] if len(sys.argv) > 1 else ".")
