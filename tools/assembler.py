"""A small assembler: a book written with names, as bytes; and a case of `shelf`'s stream.

A tree is None (NONE), ("split", slot, a constructor of the type, [a tree for each constructor]) or ("rule", term, ...).
A term is ("slot", n), ("fresh", n) or (name of a constructor or function, term, ...).
"""
import struct


class Book:
    """A book under way: names for constructors and functions, trees and terms as nested tuples."""

    def __init__(self):
        self.types, self.cons, self.funcs, self.trees = [], {}, {}, []

    def type(self, *cons):
        for name, arity in cons:
            self.cons[name] = (len(self.cons), len(self.types), arity)
        self.types.append(cons)

    def declare(self, *funcs):
        for name, arity in funcs:
            self.funcs[name] = (len(self.funcs), arity)

    def term(self, t):
        kind = t[0]
        if kind == "slot":
            return bytes([9, t[1]])
        if kind == "fresh":
            return bytes([10, t[1]])
        head = bytes([7, self.cons[kind][0]]) if kind in self.cons else bytes([8, self.funcs[kind][0]])
        return head + b"".join(self.term(a) for a in t[1:])

    def right(self, t, fresh=0):
        return bytes([6, fresh]) + self.term(t)

    def tree(self, t):
        if t is None:
            return bytes([11])
        if t[0] == "split":
            _, slot, cons, kids = t
            ty = self.cons[cons][1]
            return bytes([4, slot, ty]) + b"".join(self.tree(k) for k in kids)
        rights = t[1:]
        return bytes([5, len(rights)]) + b"".join(self.right(r) for r in rights)

    def define(self, name, tree):
        self.trees.append((name, tree))

    def bytes(self):
        out = b""
        for cons in self.types:
            out += bytes([1, len(cons)]) + b"".join(bytes([2, a]) for _, a in cons)
        order = {name: tree for name, tree in self.trees}
        for name in self.funcs:
            out += bytes([3, self.funcs[name][1]]) + self.tree(order[name])
        return out


def case(limits, book, question):
    """One case of a stream: nodes, pool, budget, results room, code room, both lengths, book, question."""
    return struct.pack("<7I", *limits, len(book), len(question)) + book + question
