#!/usr/bin/env python3
"""run.py [--ours FILE] [--checks FILE] [--books A,B]: what a turn and a node cost, ours beside unproved renderings of the same machine, as the tables of docs/PERFORMANCE.md. Not in the gate.

Counted are instructions, by callgrind: they do not depend on what else the machine does. A case is run with its budget and with budget 0: the first less the second is what its turns cost, with the line
that is printed; the second less an empty stream is what comes before (reading the case, the checks, the compiler, memory made ready). Ours is crates/shelf/out/shelf, which `rt ci` leaves, or `rt run </dev/null` in crates/shelf; the others are
built here: tests/second (plain Rust, `rustc -O`, its machine and its plain reading) and bench/fast.c (C, `gcc -O3`, written for speed). The lines that they print must be the same.
Then the stack, by massif: the most that a program has of it, less what it has on an empty stream. The deepest tree that is accepted has 64 SPLITs, one below the other, of types with 32 constructors."""
import os
import re
import struct
import subprocess
import sys
import tempfile

HERE = os.path.dirname(os.path.abspath(__file__))
ROOT = os.path.dirname(HERE)
OUT = os.path.join(ROOT, "target", "bench")
sys.path.insert(0, HERE)
import books

SIZES = [("nrev", (30, 60, 120)), ("fib", (10, 13, 15)), ("colour", (4, 6, 8)), ("perm", (3, 4, 5)), ("back", (400, 800, 1600)), ("lazy", (256, 512, 1024)), ("chain", (256, 512, 1024))]
# the bytes of what main lends in crates/shelf: book, question, work, code, results
LENT = 32769 + 1048576 + 704512 + 262144 + 65536


def run(words, data):
    return subprocess.run(words, input=data, stdout=subprocess.PIPE, stderr=subprocess.PIPE, check=True)


def build():
    os.makedirs(OUT, exist_ok=True)
    second, fast = os.path.join(OUT, "second"), os.path.join(OUT, "fast")
    run(["rustc", "-O", "-o", second, os.path.join(ROOT, "tests", "second", "second.rs")], b"")
    run(["gcc", "-O3", "-o", fast, os.path.join(HERE, "fast.c")], b"")
    return {"second": [second, "shelf", "machine"], "plain": [second, "shelf"], "fast": [fast, "batch"]}


def instructions(words, data):
    """How many instructions the program takes on this stream, and what it prints."""
    with tempfile.TemporaryDirectory() as room:
        done = run(["valgrind", "--tool=callgrind", "--callgrind-out-file=" + os.path.join(room, "out")] + words, data)
    return int(re.search(rb"Collected : (\d+)", done.stderr).group(1)), done.stdout


def stack(words, data):
    """The most bytes of stack that the program has at once."""
    with tempfile.TemporaryDirectory() as room:
        file = os.path.join(room, "out")
        run(["valgrind", "--tool=massif", "--stacks=yes", "--heap=no", "--time-unit=i", "--detailed-freq=1", "--max-snapshots=1000", "--massif-out-file=" + file] + words, data)
        with open(file, encoding="utf-8") as lines:
            return max(int(line.split("=")[1]) for line in lines if line.startswith("mem_stacks_B"))


def measure(programs, name, size, empty):
    """A row: the turns and nodes of a case, and for each program what its turns and what comes before them take."""
    row, lines = {"book": name, "size": size}, set()
    for p, words in programs.items():
        whole, line = instructions(words, books.case(name, size))
        before, _ = instructions(words, books.case(name, size, 0))
        row[p], row[p + " before"] = whole - before, before - empty[p]
        lines.add(line)
    if len(lines) != 1:
        sys.exit("%s %d: the programs do not print the same" % (name, size))
    told = lines.pop().split()
    row["turns"], row["nodes"] = int(told[2]), int(told[3])
    return row


def tell(*cells):
    print("| " + " | ".join(cells) + " |", flush=True)


def turns(programs, chosen):
    empty = {p: instructions(words, b"")[0] for p, words in programs.items()}
    tell("book", "size", "turns", "nodes", "ours, a turn", "a node", "second, a turn", "x", "its plain reading", "fast.c, a turn", "x", "before: ours", "second", "fast.c")
    tell(*["---"] * 14)
    for name, sizes in SIZES:
        for size in sizes:
            if chosen and name not in chosen:
                continue
            r = measure(programs, name, size, empty)
            per = lambda p, n="turns": "{:,.0f}".format(r[p] / r[n])
            tell(name, str(size), "{:,}".format(r["turns"]), "{:,}".format(r["nodes"]), per("ours"), per("ours", "nodes"), per("second"), "%.2f" % (r["ours"] / r["second"]), per("plain"), per("fast"),
                 "%.2f" % (r["ours"] / r["fast"]), *["{:,}".format(r[p + " before"]) for p in ("ours", "second", "fast")])


def depths(words, stream):
    """The stack of a program on trees of some depths, beyond its stack on an empty stream."""
    none = stack(words, b"")
    for name, n in (("nest", 1), ("nest", 64), ("wide", 1), ("wide", 64)):
        yield "{:,}".format(stack(words, stream(name, n)) - none)


def asked(name, n):
    """A case for `checks`: two lengths, the book, the question."""
    b, t, fresh = books.CASES[name](n)
    book, question = b.bytes(), b.right(t, fresh)
    return struct.pack("<2I", len(book), len(question)) + book + question


def main():
    words = dict(zip(sys.argv[1::2], sys.argv[2::2]))
    ours = [words.get("--ours", os.path.join(ROOT, "crates", "shelf", "out", "shelf"))]
    checks = [words.get("--checks", os.path.join(ROOT, "crates", "checks", "out", "checks"))]
    chosen = words["--books"].split(",") if "--books" in words else None
    turns(dict(ours=ours, **build()), chosen)
    if chosen:
        return
    print()
    tell("bytes of stack beyond an empty stream's", "1 SPLIT of 1 constructor", "64", "1 SPLIT of 32 constructors", "64")
    tell(*["---"] * 5)
    tell("checks: check_book, check_question", *depths(checks, asked))
    tell("shelf: run", *depths(ours, books.case))
    print("\nshelf on an empty stream, beyond what it lends: {:,} bytes".format(stack(ours, b"") - LENT))


if __name__ == "__main__":
    main()
