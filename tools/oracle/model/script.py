"""Scripts: tokens, grammar, and the kind and place of the first error.

Constants are tuples: ("N",), ("I", n), ("T", text), ("V", numbers), ("L", numbers), ("W", width, numbers),
("S", texts). Expressions: ("c", constant), ("n", name), ("f", frame) and Call.
Statements: ("assign", targets, expression), ("call", call), ("macro", Macro), ("include", name),
("frame", variable, number or variable), ("word", word), ("sequence", call).
"""

import re

from .base import INT_MAX, INT_MIN, closed_string

SPACE = re.compile(rb'(?:[ \t\r\n]+|//[^\n]*)*')
WORD = re.compile(rb'[A-Za-z_][A-Za-z_0-9]*')
DIGITS = re.compile(rb'[+-]?[0-9]+')
FRACTION = re.compile(rb'\.[0-9]*')
EXPONENT = re.compile(rb'[eE][+-]?[0-9]')
LEADING_DOT = re.compile(rb'\.[0-9]')
AT_WORD = re.compile(rb'@[A-Za-z_0-9]*')
FRAMES = (b"startframe", b"endframe", b"deltaframe", b"nextframe", b"frame")
PLAIN_WORDS = (b"play", b"step", b"stop", b"forward", b"backward")
SWITCH_WORDS = (b"loop", b"palindrome")
KEYS = (b"macro", b"include", b"NULL")
END, NAME, KEY, INTEGER, STRING, FRAME, SIGN = range(7)
MAX_LIST = 65536


class ScriptError(Exception):
    """A text is no script: the kind and the offset of its first error."""

    def __init__(self, kind, at):
        Exception.__init__(self, kind, at)
        self.kind, self.at = kind, at

    def place(self, text):
        """Line and column from 1."""
        line = text.count(b"\n", 0, self.at) + 1
        return line, self.at - (text.rfind(b"\n", 0, self.at) + 1) + 1


class Call:
    """A call: `args` are (name or None, expression), `k` counts the calls of the name in the same body."""

    __slots__ = ("name", "args", "cache", "k")

    def __init__(self, name, k):
        self.name, self.k, self.args, self.cache = name, k, [], 1


class Macro:
    """A macro definition: `params` are (name, default or None)."""

    __slots__ = ("name", "params", "results", "body")

    def __init__(self, name, params, results, body):
        self.name, self.params, self.results, self.body = name, params, results, body


class Lexer:
    """The tokens of a text. The one in hand is read when it is first looked at, so that a refusal of the one
    before comes first."""

    def __init__(self, text):
        self.text, self.pos, self.ready = text, 0, False
        self.own_kind = self.own_value = self.own_at = None

    @property
    def kind(self):
        """The kind of the token in hand."""
        if not self.ready:
            self.read()
        return self.own_kind

    @property
    def value(self):
        """Its value."""
        if not self.ready:
            self.read()
        return self.own_value

    @property
    def at(self):
        """Its offset."""
        if not self.ready:
            self.read()
        return self.own_at

    def advance(self):
        """Steps over the token in hand."""
        self.ready = False

    def token(self, kind, value, end):
        """Sets the token in hand."""
        self.own_kind, self.own_value, self.pos, self.ready = kind, value, end, True

    def skip(self):
        """The offset of the next token: past white space, comments and lines that begin with `$`."""
        text, pos = self.text, self.pos
        while True:
            pos = SPACE.match(text, pos).end()
            if text[pos:pos + 1] != b"$" or text[text.rfind(b"\n", 0, pos) + 1:pos].strip(b" \t\r"):
                return pos
            end = text.find(b"\n", pos)
            pos = len(text) if end < 0 else end

    def read(self):
        """Reads the next token."""
        text = self.text
        at = self.own_at = self.skip()
        if at == len(text):
            return self.token(END, None, at)
        m = WORD.match(text, at)
        if m:
            word = m.group()
            if len(word) > 255:
                raise ScriptError("Syntax", at)
            return self.token(KEY if word in KEYS else NAME, word, m.end())
        c = text[at]
        m = DIGITS.match(text, at)
        if m:
            self.integer(m)
        elif c == 34:
            self.string(at)
        elif c == 64:
            m = AT_WORD.match(text, at)
            if m.group()[1:] not in FRAMES:
                raise ScriptError("Syntax", at)
            self.token(FRAME, m.group()[1:], m.end())
        elif text[at:at + 2] in (b"->", b".."):
            self.token(SIGN, text[at:at + 2], at + 2)
        elif LEADING_DOT.match(text, at):
            raise ScriptError("FloatNumber", at)
        elif text[at:at + 1] in b";(){}[],=:":
            self.token(SIGN, text[at:at + 1], at + 1)
        else:
            raise ScriptError("Syntax", at)

    def integer(self, m):
        """An INT whose digits were found."""
        text, at, end = self.text, m.start(), m.end()
        if text[end:end + 2] != b"..":
            f = FRACTION.match(text, end)
            if f:
                if f.group()[1:].strip(b"0"):
                    raise ScriptError("FloatNumber", at)
                end = f.end()
            if EXPONENT.match(text, end):
                raise ScriptError("FloatNumber", at)
        number = int(m.group())
        if not INT_MIN <= number <= INT_MAX:
            raise ScriptError("NumberRange", at)
        self.token(INTEGER, number, end)

    def string(self, at):
        """A STRING that begins here."""
        content, end, bad = closed_string(self.text, at)
        if content is None:
            raise ScriptError("Syntax", at)
        if bad is not None:
            raise ScriptError("Syntax", bad)
        self.token(STRING, content, end)


class Parser(Lexer):
    """The grammar over the tokens. `counts` counts the calls by name in the body or statement in hand."""

    def __init__(self, text):
        Lexer.__init__(self, text)
        self.counts = {}
        self.depth = 0

    def misfit(self):
        """The refusal of the token in hand."""
        raise ScriptError("Syntax", self.at)

    def sign(self, sign):
        """Whether the token in hand is that sign."""
        return self.kind == SIGN and self.value == sign

    def option(self, sign):
        """Steps over the sign where it stands here."""
        if self.sign(sign):
            self.advance()
            return True
        return False

    def need(self, sign):
        """Steps over a sign that has to stand here."""
        if not self.sign(sign):
            self.misfit()
        self.advance()

    def take(self, kind):
        """Steps over a token of that kind and gives its value."""
        if self.kind != kind:
            self.misfit()
        value = self.value
        self.advance()
        return value

    # Items.

    def script(self):
        """All statements of the text."""
        out = []
        while self.kind != END:
            self.counts = {}
            item = self.item()
            if item is not None:
                out.append(item)
        return out

    def item(self):
        """One item, or None for a `;` and for a call of Executive."""
        if self.option(b";"):
            return None
        if self.kind == KEY and self.value == b"include":
            self.advance()
            return ("include", self.take(STRING))
        if self.kind == KEY and self.value == b"macro":
            return self.macro()
        if self.kind == FRAME:
            return self.frame_setting()
        if self.kind != NAME:
            self.misfit()
        name = self.value
        self.advance()
        word = self.word(name)
        return word if word is not None else self.statement(name)

    def word(self, name):
        """A sequencer word that begins with this name, or None."""
        if name in PLAIN_WORDS and self.sign(b";"):
            self.advance()
            return ("word", name)
        if name in SWITCH_WORDS and self.kind == NAME and self.value in (b"on", b"off"):
            name += b" " + self.value
            self.advance()
            self.need(b";")
            return ("word", name)
        if name == b"sequence" and self.kind == NAME:
            inner = self.take(NAME)
            call = self.call(inner)
            self.need(b";")
            return ("sequence", call)
        return None

    def frame_setting(self):
        """`FRAME = INT ;` or `FRAME = FRAME ;`."""
        variable = self.take(FRAME)
        self.need(b"=")
        if self.kind not in (INTEGER, FRAME):
            self.misfit()
        value = self.value
        self.advance()
        self.need(b";")
        return ("frame", variable, value)

    def statement(self, name):
        """A statement that begins with this name."""
        if self.sign(b"("):
            saved = self.counts
            if name == b"Executive":
                self.counts = {}
            call = self.call(name)
            self.counts = saved
            self.need(b";")
            return None if name == b"Executive" else ("call", call)
        targets = [name]
        while self.option(b","):
            targets.append(self.take(NAME))
        self.need(b"=")
        if len(targets) == 1:
            value = self.expression()
        else:
            value = self.call(self.take(NAME))
        self.need(b";")
        return ("assign", tuple(targets), value)

    def macro(self):
        """A macro definition."""
        self.advance()
        name = self.take(NAME)
        self.need(b"(")
        params = []
        if not self.sign(b")"):
            self.parameter(params)
            while self.option(b","):
                self.parameter(params)
        self.need(b")")
        results = []
        if self.option(b"->"):
            self.need(b"(")
            if not self.sign(b")"):
                self.fresh_name(results)
                while self.option(b","):
                    self.fresh_name(results)
            self.need(b")")
        self.need(b"{")
        self.counts = {}
        body = []
        while not self.option(b"}"):
            if self.option(b";"):
                continue
            item = self.statement(self.take(NAME))
            if item is not None:
                body.append(item)
        return ("macro", Macro(name, params, results, body))

    def fresh_name(self, names):
        """A name that differs from the others, at most 64 of them."""
        if self.kind != NAME or len(names) == 64 or self.value in names:
            self.misfit()
        names.append(self.value)
        self.advance()

    def parameter(self, params):
        """`NAME [ = const ]`."""
        names = [p[0] for p in params]
        self.fresh_name(names)
        default = self.constant() if self.option(b"=") else None
        params.append((names[-1], default))

    # Expressions.

    def call(self, name):
        """A call from its opening bracket on."""
        if not self.sign(b"(") or self.depth == 64:
            self.misfit()
        k = self.counts[name] = self.counts.get(name, 0) + 1
        call = Call(name, k)
        self.depth += 1
        self.advance()
        if not self.sign(b")"):
            self.argument(call)
            while self.option(b","):
                self.argument(call)
        self.need(b")")
        self.depth -= 1
        if self.option(b"["):
            self.attribute(call)
            while self.option(b","):
                self.attribute(call)
            self.need(b"]")
        return call

    def argument(self, call):
        """One argument; after a named one all are named."""
        named_before = bool(call.args) and call.args[-1][0] is not None
        if self.kind == NAME:
            name = self.take(NAME)
            if self.option(b"="):
                call.args.append((name, self.expression()))
                return
            if named_before:
                self.misfit()
            call.args.append((None, self.call(name) if self.sign(b"(") else ("n", name)))
            return
        if named_before:
            self.misfit()
        call.args.append((None, self.expression()))

    def attribute(self, call):
        """One attribute of a call."""
        name = self.take(NAME)
        self.need(b":")
        if self.kind not in (INTEGER, STRING):
            self.misfit()
        if name == b"cache":
            if self.kind != INTEGER or self.value not in (0, 1, 2):
                raise ScriptError("NumberRange", self.at)
            call.cache = self.value
        self.advance()

    def expression(self):
        """A constant, a name, a frame variable or a call."""
        if self.kind == NAME:
            name = self.take(NAME)
            return self.call(name) if self.sign(b"(") else ("n", name)
        if self.kind == FRAME:
            return ("f", self.take(FRAME))
        return ("c", self.constant())

    def constant(self):
        """A constant."""
        if self.kind == KEY and self.value == b"NULL":
            self.advance()
            return ("N",)
        if self.kind == INTEGER:
            return ("I", self.take(INTEGER))
        if self.kind == STRING:
            return ("T", self.take(STRING))
        if self.sign(b"["):
            return ("V", self.vector())
        if self.sign(b"{"):
            return self.list()
        return self.misfit()

    def vector(self):
        """The numbers of a vector, from its bracket to its bracket."""
        self.need(b"[")
        numbers = [self.take(INTEGER)]
        while not self.sign(b"]"):
            self.option(b",")
            if self.kind != INTEGER or len(numbers) == 256:
                self.misfit()
            numbers.append(self.take(INTEGER))
        self.advance()
        return tuple(numbers)

    def list(self):
        """A list or a range."""
        self.need(b"{")
        if self.option(b"}"):
            return ("L", ())
        kind, values, width = None, [], 0
        while True:
            at, own = self.at, self.kind
            if own == INTEGER or own == STRING:
                value = self.take(own)
            elif self.sign(b"["):
                own, value = SIGN, self.vector()
            else:
                self.misfit()
            if kind is None:
                kind, width = own, len(value) if own == SIGN else 0
                if own == INTEGER and self.sign(b".."):
                    return self.range(value)
            elif own != kind or own == SIGN and len(value) != width:
                raise ScriptError("MixedList", at)
            if len(values) == MAX_LIST:
                raise ScriptError("ListTooLong", at)
            values.append(value)
            if self.option(b"}"):
                break
            self.option(b",")
        if kind == INTEGER:
            return ("L", tuple(values))
        if kind == STRING:
            return ("S", tuple(values))
        return ("W", width, tuple(n for v in values for n in v))

    def range(self, first):
        """The rest of a range after its first number."""
        self.advance()
        at = self.at
        last, step = self.take(INTEGER), 1
        if self.option(b":"):
            at = self.at
            step = self.take(INTEGER)
            if step == 0:
                raise ScriptError("NumberRange", at)
        self.need_range_end(first, last, step, at)
        return ("L", tuple(range(first, last + (1 if step > 0 else -1), step)))

    def need_range_end(self, first, last, step, at):
        """The closing bracket of a range, and its length."""
        if not self.sign(b"}"):
            self.misfit()
        if max(0, (last - first) // step + 1) > MAX_LIST:
            raise ScriptError("ListTooLong", at)
        self.advance()


def parse(text):
    """The statements of a text; ScriptError where it is none."""
    return Parser(text).script()
