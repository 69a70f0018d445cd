"""Compute's expressions: the grammar, and the offset of the first misfit."""

import re

from .base import INT_MAX, Refuse

BLANKS = re.compile(rb'[ \t]*')
SIGNS = re.compile(rb'\|\||&&|==|!=|<=|>=|abs|sign|min|max|dot|[0-9]+|[-+*/%!<>?:.,$()\[\]]')
MAX_TEXT, MAX_BRACKETS, MAX_PARTS, MAX_INPUT, MAX_PLACE = 4096, 64, 256, 20, 255
ONE, TWO = (b"abs", b"sign"), (b"min", b"max", b"dot")


class Misfit(Exception):
    """No expression goes on with the token at this offset."""

    def __init__(self, at):
        Exception.__init__(self, at)
        self.at = at


class Expression:
    """A parser of one expression with a token in hand: `sign` (b"" at the end) at `at`."""

    def __init__(self, text):
        self.text, self.pos, self.open = text, 0, 0
        self.used = set()
        self.advance()

    def advance(self):
        """Reads the next token; what is no token is a sign of its own that fits nowhere."""
        self.at = BLANKS.match(self.text, self.pos).end()
        m = SIGNS.match(self.text, self.at)
        if m:
            self.sign, self.pos = m.group(), m.end()
        else:
            self.sign, self.pos = (b"" if self.at == len(self.text) else b"?!"), len(self.text)

    def misfit(self):
        """The refusal of the token in hand."""
        raise Misfit(self.at)

    def option(self, sign):
        """Steps over the sign where it is the one in hand."""
        if self.sign == sign:
            self.advance()
            return True
        return False

    def need(self, sign):
        """Steps over a sign that has to stand here."""
        if not self.option(sign):
            self.misfit()

    def bracket(self):
        """Opens a bracket."""
        if self.open == MAX_BRACKETS:
            self.misfit()
        self.open += 1
        self.advance()

    def close(self, sign):
        """Closes a bracket."""
        self.need(sign)
        self.open -= 1

    def digits(self, most):
        """Digits for a number of at most `most`."""
        if not self.sign[:1].isdigit() or int(self.sign) > most:
            self.misfit()
        number = int(self.sign)
        self.advance()
        return number

    def whole(self):
        """An expression that ends with the text."""
        tree = self.choice()
        if self.sign:
            self.misfit()
        return tree

    def choice(self):
        """`or [? e : e]`."""
        tree = self.chain(0)
        if not self.option(b"?"):
            return tree
        yes = self.choice()
        self.need(b":")
        return ("?", tree, yes, self.choice())

    LEVELS = (((b"||",), True), ((b"&&",), True), ((b"==", b"!="), False), ((b"<", b"<=", b">", b">="), False),
              ((b"+", b"-"), True), ((b"*", b"/", b"%"), True))

    def chain(self, level):
        """Operators of one level and those that bind more."""
        if level == len(self.LEVELS):
            return self.unary()
        signs, many = self.LEVELS[level]
        tree = self.chain(level + 1)
        while self.sign in signs:
            sign = self.sign
            self.advance()
            tree = (sign.decode(), tree, self.chain(level + 1))
            if not many:
                break
        return tree

    def unary(self):
        """`-` and `!` before an operand, then `.k` behind it."""
        marks = []
        while self.sign in (b"-", b"!"):
            marks.append("neg" if self.sign == b"-" else "not")
            self.advance()
        tree = self.primary()
        while self.option(b"."):
            tree = ("part", tree, self.digits(MAX_PLACE))
        for mark in reversed(marks):
            tree = (mark, tree)
        return tree

    def primary(self):
        """A number, an input, brackets, a vector or a function."""
        if self.sign[:1].isdigit():
            return ("int", self.digits(INT_MAX))
        if self.option(b"$"):
            k = self.digits(MAX_INPUT)
            self.used.add(k)
            return ("input", k)
        if self.sign == b"(":
            self.bracket()
            tree = self.choice()
            self.close(b")")
            return tree
        if self.sign == b"[":
            return self.vector()
        if self.sign in ONE or self.sign in TWO:
            return self.function()
        return self.misfit()

    def vector(self):
        """The parts of a vector."""
        self.bracket()
        parts = [self.choice()]
        while self.sign == b",":
            if len(parts) == MAX_PARTS:
                self.misfit()
            self.advance()
            parts.append(self.choice())
        self.close(b"]")
        return ("vector", parts)

    def function(self):
        """A function with its one or two arguments."""
        name = self.sign
        self.advance()
        if self.sign != b"(":
            self.misfit()
        self.bracket()
        args = [self.choice()]
        if name in TWO:
            self.need(b",")
            args.append(self.choice())
        self.close(b")")
        return (name.decode(),) + tuple(args)


KEPT = {}


def parse_expression(text):
    """The tree and the numbers of the inputs that occur, ascending; BadExpression otherwise."""
    found = KEPT.get(text)
    if found is None:
        try:
            parser = Expression(text)
            tree = parser.whole()
            found = (tree, sorted(parser.used), None) if len(text) <= MAX_TEXT else (None, None, MAX_TEXT)
        except Misfit as misfit:
            found = (None, None, min(misfit.at, MAX_TEXT) if len(text) > MAX_TEXT else misfit.at)
        if len(KEPT) < 10000:
            KEPT[text] = found
    if found[2] is not None:
        raise Refuse(b"BadExpression %d" % found[2])
    return found[0], found[1]
