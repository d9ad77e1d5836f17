#!/usr/bin/env python3
"""edits_stand.py [-v] [NAME..]: says which edits of crates/*/must-fail and crates/*/more-must-fail no longer stand, in these crates or in all.

An edit stands where each `old:` text is in its file exactly once, the pairs taken in order, each in what those before it made. Told with `look:`, for a look by
eye: brackets that the edit leaves open, and words that the file has nowhere, neither in its text nor by an import of the edit, and that are no whole path and
not bound by the edit itself. It proves nothing: `rt must-fail` and more_must_fail.sh do. With -v each edit that stands is listed too. The status is 1 where
one does not stand.
"""
import glob
import os
import re
import sys

CLOSES = {")": "(", "]": "[", "}": "{"}
WORD = re.compile(r"(?<!\w)[^\W\dλ][\w'?]*")
# A name by its whole path, which needs no import.
PATH = re.compile(r"\bRattle(?:\.[\w'◌|&+*/%<≤≡∷-]+)+")
# Where names are bound: by λ, in the patterns of elim, and before `=` (let, and the fields of a record).
BINDS = re.compile(r"λ([^.]*)\.|[\[|]([^\[|↦]*)↦|([\w']+(?: : [^=]*)?) =")
# What std's methods and both languages have everywhere.
PLAIN = set("let in elim record return mut u8 u16 u32 u64 usize len".split())


def read(path):
    with open(path, encoding="utf-8") as it:
        return it.read()


def pairs_of(text):
    """The edit's (path, old, new), read as rt reads them."""
    path, old, found = "", "", []
    for line in text.split("\n"):
        if line.startswith("file: "):
            path = line[len("file: "):].strip()
        elif line.startswith("old: "):
            old = line[len("old: "):]
        elif line.startswith("new:"):
            found.append((path, old, line[len("new:"):].removeprefix(" ")))
            old = ""
    return found


def left_open(text):
    """The brackets that a text closes and did not open, and those that it leaves open."""
    closed, opened = [], []
    for mark in text:
        if mark in CLOSES.values():
            opened.append(mark)
        elif mark in CLOSES:
            if opened and opened[-1] == CLOSES[mark]:
                opened.pop()
            else:
                closed.append(mark)
    return closed, opened


def imported(text):
    return set(WORD.findall(" ".join(re.findall(r"^\s*(?:pub )?(?:ghost )?use .*", text, re.M))))


def strange(new, known):
    """The words of a text that are not known, not bound there, and not in a whole path."""
    bare = PATH.sub(" ", new)
    bound = {word for found in BINDS.findall(bare) for part in found for word in WORD.findall(part)}
    return [word for word in dict.fromkeys(WORD.findall(bare)) if word not in known | bound | PLAIN]


def look(edit, crate):
    """Says why an edit does not stand, and what of it is to be looked at."""
    wrong, doubts, was, now = [], [], {}, {}
    pairs = pairs_of(read(edit))
    for path, old, new in pairs:
        file = os.path.join(crate, path)
        if not old or not os.path.isfile(file):
            return [f"a 'new:' line has no 'old:' before it, or there is no file {path}"], []
        if path not in was:
            was[path] = now[path] = read(file)
        times = now[path].count(old)
        if times != 1:
            wrong.append(f"{path} has it {times} times: {old}")
        elif old == new:
            wrong.append(f"it changes nothing: {old}")
        else:
            now[path] = now[path].replace(old, new)
            if left_open(old) != left_open(new):
                doubts.append(f"brackets: {new}")
    for path, old, new in pairs:
        words = strange(new, set(WORD.findall(was[path])) | imported(now[path]))
        if words:
            doubts.append(f"{path} has no {', '.join(words)}")
    return wrong if pairs else ["it has no pair"], doubts


def main(args):
    loud, names = "-v" in args, {it for it in args if it != "-v"}
    root = os.path.dirname(os.path.dirname(os.path.abspath(__file__)))
    total = fallen = 0
    for edit in sorted(glob.glob(os.path.join(root, "crates", "*", "*must-fail", "*.edit"))):
        crate = os.path.dirname(os.path.dirname(edit))
        if names and os.path.basename(crate) not in names:
            continue
        wrong, doubts = look(edit, crate)
        total, fallen = total + 1, fallen + bool(wrong)
        said = [f"does not stand: {it}" for it in wrong] + [f"look: {it}" for it in doubts]
        for it in said or ["stands"] * loud:
            print(f"{os.path.relpath(edit, root)}: {it}")
    print(f"{total} edits, {fallen} do not stand")
    return bool(fallen)


if __name__ == "__main__":
    sys.exit(main(sys.argv[1:]))
