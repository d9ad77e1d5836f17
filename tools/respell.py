#!/usr/bin/env python3
"""respell.py [FOLDER]: brings the repository's own names to today's spelling, after port.py has turned the rest.

A word in lower camel case becomes snake case (`writeEach`: `write_each`), each part of a dashed name by itself; a definition whose values are facts gets a
capital (`bookIs`: `BookIs`). BY_FILE has the names that would fall together with another. Files of crates/ (.antt, .rt, .edit) are read; functions of src/, strings
and inputs keep their names, as they are in snake case already. A second run changes nothing.
"""
import os
import re
import sys

# Definitions whose values are facts: types, so in upper camel case.
FACTS = "bookIs compiledIs consIs consStand headIs passIs questionIs restIs settingIs splitIs surveyIs takenIs typesIs typesStand".split()
# Names that would fall together with a tactic, with a definition's new name, or that are facts and plain words: (the name, its new name, the files that have it).
BY_FILE = [
    ("known", "Known", r"crates/book/proofs/Records\.antt$"),
    ("stood", "Stood", r"crates/writer/"),
    ("first_of", "first_terms", r"crates/(book|engine|asking|compiler)/"),
    ("first_of", "first_among", r"crates/(heap|seek)/"),
    ("the_one", "the_one_lem", r"crates/(book/proofs/Fairness|asking/proofs/Records|compiler/proofs/Bytes)\.antt$"),
    ("no_room", "no_result_room", r"crates/agreement/proofs/(Moments|Answers)\.antt$"),
    ("on_store", "on_store_lem", r"crates/(standing|run)/proofs/"),
    ("held_by", "held_by_lem", r"crates/turns/proofs/Turning\.antt$"),
    ("split_at", "split_at_lem", r"crates/compiler/proofs/"),
]
APART = {"firstOf": "first_among"}
WORD = re.compile(r"(?<![\w'₀-₉])[a-z][A-Za-z0-9_]*(?![A-Za-z0-9_])")
CAMEL = re.compile(r"[a-z0-9_][A-Z]")


def snake(word):
    return re.sub(r"(?<=[a-z0-9])([A-Z])", lambda m: "_" + m[1].lower(), word)


def new(word):
    if word in APART:
        return APART[word]
    if word in FACTS:
        return word[0].upper() + word[1:]
    return snake(word) if CAMEL.search(word) else word


def respell(path, text):
    for word, name, files in BY_FILE:
        if re.search(files, path):
            text = re.sub(rf"(?<![\w'₀-₉-]){word}(?![\w'-])", name, text)
    return WORD.sub(lambda m: new(m[0]), text)


def files(root):
    for folder, folders, names in os.walk(os.path.join(root, "crates")):
        folders[:] = sorted(f for f in folders if f != "out")
        for name in sorted(names):
            if name.endswith((".antt", ".rt", ".edit")):
                yield os.path.join(folder, name)


def main(root):
    texts = {}
    for path in files(root):
        with open(path, encoding="utf-8") as it:
            texts[path] = it.read()
    # (BY_FILE fits the names of before alone, so a tree with no word in camel case is left as it is)
    if not any(new(w) != w for path, text in texts.items() if not path.endswith(".edit") for w in WORD.findall(text)):
        print("respell: nothing to do")
        return
    changed = 0
    for path, text in texts.items():
        told = respell(os.path.relpath(path, root), text)
        if told != text:
            changed += 1
            with open(path, "w", encoding="utf-8") as it:
                it.write(told)
    print(f"respell: {changed} files")


if __name__ == "__main__":
    main(sys.argv[1] if len(sys.argv) > 1 else ".")
