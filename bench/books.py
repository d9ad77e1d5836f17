#!/usr/bin/env python3
"""books.py NAME SIZE [REPEAT [BUDGET]]: a stream of cases for `shelf`, of one of the documents' own programs at a size; `books.py list` names them.
The programs: nrev (naive reverse of a list), fib (Fibonacci on Peano numbers), colour (map colouring), perm (permutation sort), back (reverse run backwards: which list reversed is this one? It goes on
for ever: the size is the budget), lazy (a list built cell by cell, for the cost of looking for calls), chain (a long chain of forwards), nest and wide (SPLITs one below the other, of types with 1 and with 32 constructors, for the stack's depth)."""
import os
import sys

sys.path.insert(0, os.path.join(os.path.dirname(os.path.abspath(__file__)), "..", "tools"))
import assembler
from assembler import Book


def s(i):
    return ("slot", i)


def lists(b):
    b.type(("nil", 0), ("cons", 2))
    b.declare(("append", 2), ("reverse", 1))
    b.define("append", ("split", 0, "nil", [("rule", s(1)), ("rule", ("cons", s(2), ("append", s(3), s(1))))]))
    b.define("reverse", ("split", 0, "nil", [("rule", ("nil",)), ("rule", ("append", ("reverse", s(2)), ("cons", s(1), ("nil",))))]))


def listing(items):
    t = ("nil",)
    for x in reversed(items):
        t = ("cons", x, t)
    return t


def nrev(n):
    b = Book()
    lists(b)
    b.type(("a", 0))
    return b, ("reverse", listing([("a",)] * n)), 0


def peano(n):
    t = ("zero",)
    for _ in range(n):
        t = ("suc", t)
    return t


def numbers(b):
    b.type(("zero", 0), ("suc", 1))
    b.declare(("add", 2))
    b.define("add", ("split", 0, "zero", [("rule", s(1)), ("rule", ("suc", ("add", s(2), s(1))))]))


def fib(n):
    b = Book()
    numbers(b)
    b.declare(("fib", 1))
    b.define("fib", ("split", 0, "zero", [("rule", ("zero",)), ("split", 1, "zero", [("rule", ("suc", ("zero",))), ("rule", ("add", ("fib", ("suc", s(2))), ("fib", s(2))))])]))
    return b, ("fib", peano(n)), 0


def colour(n):
    """A strip of n lands, 2 to 8: each touches the two after it."""
    b = Book()
    b.type(("no", 0), ("yes", 0))
    b.type(("red", 0), ("green", 0), ("blue", 0))
    b.type(("map", n))
    b.declare(("differ", 2), ("also", 2), ("check", n))
    row = lambda i: ("split", 1, "red", [("rule", ("no",)) if j == i else ("rule", ("yes",)) for j in range(3)])
    b.define("differ", ("split", 0, "red", [row(0), row(1), row(2)]))
    b.define("also", ("split", 0, "no", [None, ("rule", s(1))]))
    t = ("map",) + tuple(s(i) for i in range(n))
    for i, j in reversed([(i, j) for i in range(n) for j in (i + 1, i + 2) if j < n]):
        t = ("also", ("differ", s(i), s(j)), t)
    b.define("check", ("rule", t))
    return b, ("check",) + tuple(("fresh", i) for i in range(n)), n


def perm(n):
    b = Book()
    b.type(("nil", 0), ("cons", 2))
    b.type(("zero", 0), ("suc", 1))
    b.type(("no", 0), ("yes", 0))
    b.declare(("insert", 2), ("perm", 1), ("leq", 2), ("sorted", 1), ("also", 2), ("pick", 2), ("sort", 1))
    b.define("insert", ("split", 1, "nil", [("rule", ("cons", s(0), ("nil",))), ("rule", ("cons", s(0), ("cons", s(2), s(3))), ("cons", s(2), ("insert", s(0), s(3))))]))
    b.define("perm", ("split", 0, "nil", [("rule", ("nil",)), ("rule", ("insert", s(1), ("perm", s(2))))]))
    b.define("leq", ("split", 0, "zero", [("rule", ("yes",)), ("split", 1, "zero", [("rule", ("no",)), ("rule", ("leq", s(2), s(3)))])]))
    b.define("sorted", ("split", 0, "nil", [("rule", ("yes",)), ("split", 2, "nil", [("rule", ("yes",)), ("rule", ("also", ("leq", s(1), s(3)), ("sorted", ("cons", s(3), s(4)))))])]))
    b.define("also", ("split", 0, "no", [("rule", ("no",)), ("rule", s(1))]))
    b.define("pick", ("split", 0, "no", [None, ("rule", s(1))]))
    b.define("sort", ("rule", ("both", ("perm", s(0)))))
    b.declare(("both", 1))
    b.define("both", ("rule", ("pick", ("sorted", s(0)), s(0))))
    return b, ("sort", listing([peano(i) for i in reversed(range(n))])), 0


def back(n):
    b = Book()
    lists(b)
    b.type(("a", 0))
    b.type(("no", 0), ("yes", 0))
    b.declare(("same", 2), ("when", 2), ("ask", 2))
    b.define("same", ("split", 0, "nil", [("split", 1, "nil", [("rule", ("yes",)), ("rule", ("no",))]), ("split", 1, "nil", [("rule", ("no",)), ("rule", ("same", s(3), s(5)))])]))
    b.define("when", ("split", 0, "no", [None, ("rule", s(1))]))
    b.define("ask", ("rule", ("when", ("same", ("reverse", s(0)), s(1)), s(0))))
    return b, ("ask", ("fresh", 0), listing([("a",)] * 4)), 1


def doubles(b, n):
    """A term of n constructors suc, n a power of 2, that is built as it is looked at."""
    b.declare(("double", 1))
    b.define("double", ("split", 0, "zero", [("rule", ("zero",)), ("rule", ("suc", ("suc", ("double", s(1)))))]))
    t = ("suc", ("zero",))
    while n > 1:
        t, n = ("double", t), n // 2
    return t


def lazy(n):
    b = Book()
    b.type(("nil", 0), ("cons", 2))
    b.type(("zero", 0), ("suc", 1))
    b.declare(("build", 1))
    b.define("build", ("split", 0, "zero", [("rule", ("nil",)), ("rule", ("cons", ("zero",), ("build", s(1))))]))
    return b, ("build", doubles(b, n)), 0


def chain(n):
    b = Book()
    b.type(("zero", 0), ("suc", 1))
    b.declare(("down", 2))
    b.define("down", ("split", 0, "zero", [("rule", s(1)), ("rule", ("down", s(2), s(1)))]))
    return b, ("down", doubles(b, n), ("zero",)), 0


def nest(n, width=1):
    """A tree of n SPLITs, one below the other, 1 to 64, each under the last constructor of a type that has `width` of them: 64 slots is the most there is, and each is split once at most."""
    b = Book()
    b.type(*[("e%d" % i, 0) for i in range(1, width)], ("eight", 8))
    b.type(*[("u%d" % i, 0) for i in range(1, width)], ("unit", 0))
    t = ("rule", ("unit",))
    for i in reversed(range(n)):
        t = ("split", i, "eight" if i < 7 else "unit", [None] * (width - 1) + [t])
    b.declare(("deep", 8))
    b.define("deep", t)
    return b, ("deep",) + (("unit",),) * 8, 0


def wide(n):
    """The same, each type with the most constructors there may be."""
    return nest(n, 32)


CASES = {"nrev": nrev, "fib": fib, "colour": colour, "perm": perm, "back": back, "lazy": lazy, "chain": chain, "nest": nest, "wide": wide}


def case(name, size, budget=None):
    """The bytes of one case."""
    b, t, fresh = CASES[name](size)
    book, question = b.bytes(), b.right(t, fresh)
    if budget is None:
        budget = size if name == "back" else 1000000
    return assembler.case((16384, 1024, budget, 65536, 262144), book, question)


def main():
    if len(sys.argv) < 3:
        print(" ".join(CASES))
        return
    repeat = int(sys.argv[3]) if len(sys.argv) > 3 else 1
    budget = int(sys.argv[4]) if len(sys.argv) > 4 else None
    sys.stdout.buffer.write(case(sys.argv[1], int(sys.argv[2]), budget) * repeat)


if __name__ == "__main__":
    main()
