#!/usr/bin/env python3
"""The places in src/ that docs/DESIGN-PASS.md counts, point by point.

    python3 tools/design_places.py            the files as they stand
    python3 tools/design_places.py COMMIT     the files at a commit
    python3 tools/design_places.py -l [..]    each place too, as FILE:LINE TEXT

Points: 1 answers of the shape of Option or Result, flags with a value beside them, numbers for kinds; 2 twins; 3 counted loops; 4 conversions, copies and
comparisons by hand; 5 facts in the contracts of three or more functions, parameters that travel together; 6 buffers with a length beside them;
7 a match that chooses which step to run. It reads text, not meaning: a place that it finds may be right as it is.
"""
import re
import subprocess
import sys
from collections import defaultdict


def sources(commit):
    if commit is None:
        names = subprocess.run(["git", "ls-files", "crates"], capture_output=True, text=True, check=True).stdout.split()
        read = lambda n: open(n, encoding="utf-8").read()
    else:
        names = subprocess.run(["git", "ls-tree", "-r", "--name-only", commit, "crates"], capture_output=True, text=True, check=True).stdout.split()
        read = lambda n: subprocess.run(["git", "show", f"{commit}:{n}"], capture_output=True, text=True, check=True).stdout
    return {n: read(n) for n in names if "/src/" in n and n.endswith(".rt")}


def items(text, word):
    """(line number, header, body) of each `word` item with a brace body."""
    for m in re.finditer(rf"^(?:pub(?:\([a-z]+\))? )?{word} (\w+)", text, re.M):
        start = m.start()
        k = body_start(text, m.end())
        if k is None:
            continue
        depth, e = 0, k
        while e < len(text):
            depth += {"{": 1, "}": -1}.get(text[e], 0)
            e += 1
            if depth == 0:
                break
        yield text.count("\n", 0, start) + 1, m.group(1), text[start:k], text[k + 1:e - 1]


def body_start(text, at):
    """The brace that opens the body: the first one at a line's start or after a header with no clause."""
    end_of_line = text.find("\n", at)
    m = re.compile(r"^\{", re.M).search(text, at)
    first = text.find("{", at)
    nxt = re.compile(r"^(?:pub |fn |struct |enum |impl |//)", re.M).search(text, at)
    stop = nxt.start() if nxt else len(text)
    if m and m.start() < stop:
        return m.start()
    if 0 <= first < stop:
        line = text[text.rfind("\n", 0, first) + 1:first]
        if "requires" not in line and "ensures" not in line:
            return first
    return None


def variants(body):
    body = re.sub(r"//[^\n]*", "", body)
    out, depth, cur = [], 0, ""
    for ch in body:
        if ch in "({[":
            depth += 1
        if ch in ")}]":
            depth -= 1
        if ch == "," and depth == 0:
            out.append(cur.strip())
            cur = ""
        else:
            cur += ch
    if cur.strip():
        out.append(cur.strip())
    return [v for v in out if v]


def main():
    args = [a for a in sys.argv[1:] if a != "-l"]
    listing = "-l" in sys.argv[1:]
    files = sources(args[0] if args else None)
    found = defaultdict(list)

    def add(point, name, line, text):
        found[point].append((name, line, " ".join(text.split())[:110]))

    bodies = defaultdict(list)
    structs = defaultdict(list)
    clauses = defaultdict(list)
    pairs = defaultdict(list)
    for name, text in sorted(files.items()):
        for line, ident, _, body in items(text, "enum"):
            vs = variants(body)
            carrying = [v for v in vs if "(" in v or "{" in v]
            if len(vs) == 2 and carrying and ident != "Head":
                add("1a own Option or Result", name, line, ident + " { " + "; ".join(vs) + " }")
            elif len(vs) == 3 and len(carrying) == 2 and any("Fault" in v for v in vs):
                add("1a own Option or Result", name, line, ident + " { " + "; ".join(vs) + " }")
            elif len(vs) >= 3 and sum("(Sort, usize)" in v for v in vs) and len(carrying) == len(vs):
                add("1a own Option or Result", name, line, ident + " { " + "; ".join(vs) + " }")
        for line, ident, _, body in items(text, "struct"):
            fields = variants(body)
            if any(re.search(r": bool\b", f) for f in fields):
                add("1b flag with a value", name, line, ident + " { " + "; ".join(fields) + " }")
            if any(re.search(r"\bn: usize", f) for f in fields) and any("; " in f and "[" in f for f in fields):
                add("6 buffer with a length", name, line, ident)
            structs[(ident, " ".join(fields))].append((name, line))
        for line, ident, head, body in items(text, "fn"):
            norm = re.sub(r"\s+", " ", re.sub(r"//[^\n]*", "", body)).strip()
            norm = re.sub(r"\b(0x[0-9A-Fa-f]+|\d+)\b", "N", norm)
            norm = re.sub(r"\b[A-Z]\w*(::[A-Z]\w*)?", "T", norm)
            if len(norm) > 12:
                bodies[norm].append((name, line, ident))
            for clause in re.findall(r"requires(?: \w+)? \{ (.*) \}", head):
                key = re.sub(r"\b\w+\.(old|now)\b", r"_", clause)
                clauses[key].append((name, line, ident))
            params = re.findall(r"(\w+): (&mut \[u8\]|&\[u8\]|usize|u16|u8|[A-Z]\w*|&mut [A-Z]\w*)", head.split("->")[0])
            known = [p for p, t in params]
            for group in (("s", "limit"), ("limit", "base"), ("made", "held"), ("code", "o"), ("cons", "funcs"), ("lore", "rows"), ("work", "code", "results"),
                          ("book", "question"), ("l", "b", "q"), ("head", "waiting"), ("code", "regs")):
                if all(g in known for g in group):
                    pairs[group].append((name, line, ident))
        for k, row in enumerate(text.split("\n"), 1):
            if re.search(r"\bkind (==|!=|<) \d|\b\d+ < kind\b", row) or re.search(r"\b(mark|home) [=!]= ", row):
                add("1c numbers for kinds", name, k, row)
            elif re.search(r"put[123]?\([^;]*\b0x[0-9A-Fa-f]+|\] = 0x|\bmatch kind\b|=> Rec::Of\(\d+", row):
                add("1c numbers for kinds", name, k, row)
            if re.search(r"^\s*while .*\{", row):
                rest = "\n".join(text.split("\n")[k - 1:k + 26])
                body = rest.split("\n    }\n", 1)[0]
                m = re.search(r"while (?:.*?)\b(\w+)\b (?:<|>|<=) |while \d+ < (\w+)", row)
                names = {w for w in re.findall(r"\b[a-z_]\w*\b", row) if w not in ("while", "len")}
                if any(re.search(rf"\b{v} (?:\+=|-=) 1;", body) for v in names):
                    add("3 counted loop", name, k, row)
            if re.search(r"fn (wide|least|number|place|sort|answer)\b", row):
                add("4 conversion or comparison by hand", name, k, row)
            elif re.search(r"% 256|/ 256|256 \* |\* 256\b|65536 \*|% 65536", row) and "requires" not in row and "ensures" not in row and not row.strip().startswith("//"):
                add("4 conversion or comparison by hand", name, k, row)
            elif re.search(r"\.0 [=!]= \w+\.0", row):
                add("4 conversion or comparison by hand", name, k, row)
            elif re.search(r"\w+\[[\w +]+\] = \w+\[[\w +]+\];", row):
                add("4 conversion or comparison by hand", name, k, row)
            if re.search(r"^\s*match op \{", row):
                add("7 which step to run", name, k, row)
    for norm, where in bodies.items():
        if len(where) > 1:
            for name, line, ident in where:
                add("2 twins", name, line, "fn " + ident)
    for (ident, fields), where in structs.items():
        if len(where) > 1:
            for name, line in where:
                add("2 twins", name, line, "struct " + ident)
    for key, where in clauses.items():
        if len(where) >= 3:
            add("5a one fact in three or more contracts", where[0][0], where[0][1], f"{key}: {len(where)} functions")
    for group, where in pairs.items():
        if len(where) >= 3:
            add("5b parameters that travel together", where[0][0], where[0][1], f"{', '.join(group)}: {len(where)} functions")
    for point in sorted(found):
        print(f"{point}: {len(found[point])}")
        if listing:
            for name, line, text in found[point]:
                print(f"    {name}:{line} {text}")


if __name__ == "__main__":
    main()
