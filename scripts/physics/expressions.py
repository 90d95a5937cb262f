"""Expressions of rates: trees ("num", fraction), ("var", name), (operator, tree ..)."""
import math
import re
from fractions import Fraction as Q

from .faults import Fault

TOKEN = re.compile(
    r"\s*(?:(\d+(?:\.\d+)?(?:[eE][-+]?\d+)?)|([A-Za-z_]\w*)|(\*\*|[-+*/^(),]))", re.A
)
OF_ONE = ("sqrt", "sin", "cos", "tan", "exp", "abs")
OF_TWO = ("min", "max")
MOST_POWER = 16
DEEPEST = 60
LARGEST_EXPONENT = 30


class Parser:
    """Reads one expression; `names` is what may be named, and `place` is told in faults."""

    def __init__(self, text, place, names):
        self.place, self.names, self.at, self.depth = place, names, 0, 0
        self.tokens = self.split(text.rstrip())

    def split(self, text):
        found, at = [], 0
        while at < len(text):
            piece = TOKEN.match(text, at)
            if not piece:
                column = at + 1 + len(text[at:]) - len(text[at:].lstrip())
                raise Fault(
                    self.place,
                    f"column {column}: {text[column - 1]!r} is no part of an expression",
                )
            kind = ("number", "name", "sign")[piece.lastindex - 1]
            found.append((piece[piece.lastindex], kind, piece.start(piece.lastindex) + 1))
            at = piece.end()
        return found + [("", "end", len(text) + 1)]

    def bad(self, wanted):
        word, kind, column = self.tokens[self.at]
        stands = "the end" if kind == "end" else repr(word)
        raise Fault(self.place, f"column {column}: {wanted} is wanted, and {stands} stands there")

    def take(self, *signs):
        word, kind, _ = self.tokens[self.at]
        if kind == "sign" and word in signs:
            self.at += 1
            return word
        return None

    def whole(self):
        tree = self.total()
        if self.tokens[self.at][1] != "end":
            self.bad("an operator or the end")
        return tree

    def total(self):
        self.depth += 1
        if self.depth > DEEPEST:
            raise Fault(self.place, f"an expression nests deeper than {DEEPEST} levels")
        left = self.product()
        while sign := self.take("+", "-"):
            left = (sign, left, self.product())
        self.depth -= 1
        return left

    def product(self):
        left = self.unary()
        while sign := self.take("*", "/"):
            left = (sign, left, self.unary())
        return left

    def unary(self):
        minus = False
        while self.take("-"):
            minus = not minus
        return ("neg", self.power()) if minus else self.power()

    def power(self):
        base = self.atom()
        if not self.take("^", "**"):
            return base
        minus = self.take("-")
        word, kind, _ = self.tokens[self.at]
        if kind != "number" or not word.isdigit() or int(word) > MOST_POWER:
            self.bad(f"a whole exponent up to {MOST_POWER}")
        self.at += 1
        found = ("^", base, int(word))
        return ("/", ("num", Q(1)), found) if minus else found

    def atom(self):
        word, kind, column = self.tokens[self.at]
        if kind == "number":
            self.at += 1
            if abs(int((re.split("[eE]", word) + ["0"])[1])) > LARGEST_EXPONENT:
                raise Fault(self.place, f"column {column}: the number {word} is out of bounds")
            return ("num", Q(word))
        if self.take("("):
            inner = self.total()
            return inner if self.take(")") else self.bad("')'")
        if kind != "name":
            self.bad("a number, a name or '('")
        if word in OF_ONE or word in OF_TWO:
            return self.call(word)
        if word not in self.names:
            raise Fault(
                self.place,
                f"column {column}: {word} is no state, input, disturbance or constant",
            )
        self.at += 1
        return ("var", word)

    def call(self, word):
        self.at += 1
        if not self.take("("):
            self.bad("'('")
        parts = [self.total()]
        while self.take(","):
            parts.append(self.total())
        if not self.take(")"):
            self.bad("')'")
        wanted = 1 if word in OF_ONE else 2
        if len(parts) != wanted:
            raise Fault(self.place, f"{word} has {wanted} arguments, and not {len(parts)}")
        if word == "tan":
            return ("/", ("sin", parts[0]), ("cos", parts[0]))
        return (word, *parts)


def parse(text, place, names):
    return Parser(text, place, names).whole()


def parts_of(tree):
    return [part for part in tree[1:] if isinstance(part, tuple)]


def replaced(tree, by):
    """The tree with each name of `by` replaced by its tree."""
    if tree[0] == "var":
        return by.get(tree[1], tree)
    return tuple(replaced(part, by) if isinstance(part, tuple) else part for part in tree)


def names_in(tree):
    if tree[0] == "var":
        return {tree[1]}
    return set().union(*[names_in(part) for part in parts_of(tree)])


def has_kink(tree):
    return tree[0] in ("abs", "min", "max") or any(has_kink(part) for part in parts_of(tree))


def summed(a, b, sign):
    out = dict(a)
    for m, c in b.items():
        out[m] = out.get(m, 0) + sign * c
    return {m: c for m, c in out.items() if c}


def multiplied(a, b):
    out = {}
    for m, c in a.items():
        for n, d in b.items():
            key = tuple(sorted(m + n))
            out[key] = out.get(key, 0) + c * d
    return {m: c for m, c in out.items() if c}


def polynomial(tree):
    """{monomial: fraction}, a monomial being a sorted tuple of names; None where it is none."""
    op = tree[0]
    if op == "num":
        return {(): tree[1]} if tree[1] else {}
    if op == "var":
        return {(tree[1],): Q(1)}
    if op in OF_ONE or op in OF_TWO:
        return None
    parts = [polynomial(part) for part in parts_of(tree)]
    if None in parts:
        return None
    if op == "neg":
        return {m: -c for m, c in parts[0].items()}
    if op in "+-":
        return summed(*parts, 1 if op == "+" else -1)
    if op == "/":
        if set(parts[1]) != {()}:
            return None
        return {m: c / parts[1][()] for m, c in parts[0].items()}
    if op == "*":
        return multiplied(*parts)
    out = {(): Q(1)}
    for _ in range(tree[2]):
        out = multiplied(out, parts[0])
    return out


def slope_of(form, name):
    """The derivative of a polynomial."""
    out = {}
    for m, c in form.items():
        if times := m.count(name):
            rest = list(m)
            rest.remove(name)
            out[tuple(rest)] = out.get(tuple(rest), 0) + c * times
    return out


def curved(tree):
    """The names in which the tree may not be affine (products of names count for both)."""
    op = tree[0]
    if op in ("num", "var"):
        return set()
    if op in ("neg", "+", "-"):
        return set().union(*[curved(part) for part in tree[1:]])
    if op == "*":
        a, b = names_in(tree[1]), names_in(tree[2])
        return a | b if a and b else curved(tree[1]) | curved(tree[2])
    if op == "/":
        return names_in(tree) if names_in(tree[2]) else curved(tree[1])
    if op == "^" and tree[2] == 1:
        return curved(tree[1])
    return names_in(tree)


FLOATS = {
    "sqrt": lambda v: math.sqrt(max(v, 0.0)),
    "sin": math.sin,
    "cos": math.cos,
    "exp": math.exp,
    "abs": abs,
    "neg": lambda v: -v,
    "+": lambda a, b: a + b,
    "-": lambda a, b: a - b,
    "*": lambda a, b: a * b,
    "/": lambda a, b: a / b,
    "min": min,
    "max": max,
}


def number(tree, env):
    """The value in floats: for fits alone, never for a bound."""
    if tree[0] == "num":
        return float(tree[1])
    if tree[0] == "var":
        return env[tree[1]]
    if tree[0] == "^":
        return number(tree[1], env) ** tree[2]
    return FLOATS[tree[0]](*[number(part, env) for part in tree[1:]])
