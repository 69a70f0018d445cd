"""The reader of native files: tokens, clauses, references, and the first refusal with its offset."""

import re

from .base import (BYTE, INT, INT_MAX, INT_MIN, MAX_ITEMS, MAX_LEVELS, MAX_OBJECTS, MAX_SIZE, MAX_VALUES, SHORT,
                   TYPE_BYTES, TYPE_RANGE, UBYTE, UINT, UINT_MAX, USHORT, closed_string)
from .objects import CELLS, CONSTANT, GRID, PLAIN, REGULAR, Array, Object, grid_bounds

TOKEN = re.compile(rb'(?:[ \t\r\n,]+|#[^\n]*)*')
WORD = re.compile(rb'[^ \t\r\n,"#]+')
NUMBER = re.compile(rb'([+-]?[0-9]+)(?:\.0*)?\Z')
LIKE_A_NUMBER = re.compile(rb'[0-9]|[+.\-][0-9]')
BLANKS = re.compile(rb'[ \t\r]*')

END, A_WORD, A_QUOTED = range(3)
SIMPLE_TYPES = {b"byte": UBYTE, b"ubyte": UBYTE, b"short": SHORT, b"ushort": USHORT, b"int": INT, b"uint": UINT}
SIGNED_TYPES = {b"byte": BYTE, b"short": SHORT, b"int": INT}
UNSIGNED_TYPES = {b"byte": UBYTE, b"short": USHORT, b"int": UINT}
ORDERS = {b"msb": "big", b"lsb": "little"}


class BadFile(Exception):
    """A native file is refused with a kind at an offset."""

    def __init__(self, kind, at):
        Exception.__init__(self, kind, at)
        self.kind, self.at = kind, at


class Clause:
    """One object clause: what it holds, and its references with their offsets."""

    __slots__ = ("name", "at", "kind", "array", "text", "composite", "parts", "attrs")

    def __init__(self, name, at):
        self.name, self.at, self.kind = name, at, None
        self.array = self.text = None
        self.composite = False
        self.parts, self.attrs = [], []


class Reader:
    """One reading of a file; `kind`, `word`, `at`, `end` are the token in hand."""

    def __init__(self, data):
        self.data, self.pos = data, 0
        self.clauses, self.by_name = [], {}
        self.refs = []
        self.default = None
        self.ahead = False

    # Tokens.

    def peek(self):
        """Makes the next token the one in hand, if it isn't yet."""
        if self.ahead:
            return
        data = self.data
        at = TOKEN.match(data, self.pos).end()
        self.at, self.ahead = at, True
        if at == len(data):
            self.kind, self.word, self.end = END, b"", at
        elif data[at] == 34:
            content, end, bad = closed_string(data, at)
            if content is None:
                raise BadFile("Syntax", at)
            if bad is not None:
                raise BadFile("Syntax", bad)
            self.kind, self.word, self.end = A_QUOTED, content, end
        else:
            self.kind, self.end = A_WORD, WORD.match(data, at).end()
            self.word = data[at:self.end]

    def take(self):
        """Steps over the token in hand."""
        self.pos, self.ahead = self.end, False

    def misfit(self):
        """The refusal of a token that doesn't fit."""
        if self.kind == END:
            raise BadFile("Truncated", len(self.data))
        raise BadFile("Syntax", self.at)

    def is_word(self, word):
        """Whether the next token is that key word."""
        self.peek()
        return self.kind == A_WORD and self.word == word

    def option(self, word):
        """Steps over the key word where it comes next."""
        if self.is_word(word):
            self.take()
            return True
        return False

    def need(self, word):
        """Steps over a key word that has to come."""
        if not self.option(word):
            self.misfit()

    def quoted(self):
        """A quoted string and its offset."""
        self.peek()
        if self.kind != A_QUOTED:
            self.misfit()
        self.take()
        return self.word, self.at

    def name(self):
        """A quoted string or a word, and its offset."""
        self.peek()
        if self.kind == END:
            self.misfit()
        self.take()
        return self.word, self.at

    def number_here(self):
        """The number that comes next, or None; FloatType where it only looks like one."""
        self.peek()
        if self.kind != A_WORD:
            return None
        m = NUMBER.match(self.word)
        if m:
            return int(m.group(1))
        if LIKE_A_NUMBER.match(self.word):
            raise BadFile("FloatType", self.at)
        return None

    def number(self, low, high):
        """A number within a range."""
        n = self.number_here()
        if n is None:
            self.misfit()
        self.take()
        if not low <= n <= high:
            raise BadFile("ValueRange", self.at)
        return n

    def numbers(self, count, low, high):
        """So many numbers within a range."""
        return [self.number(low, high) for _ in range(count)]

    # Clauses.

    def file(self):
        """All clauses up to `end` or the end of the input."""
        while True:
            self.peek()
            if self.kind == END:
                return
            if self.kind != A_WORD:
                self.misfit()
            if self.word == b"end":
                return
            if self.word == b"object":
                self.take()
                self.object()
            elif self.word == b"default":
                self.take()
                self.default = self.name()
            else:
                self.misfit()

    def object(self):
        """One object clause after its word `object`."""
        name, at = self.name()
        if name in self.by_name:
            raise BadFile("Syntax", at)
        clause = Clause(name, at)
        self.by_name[name] = clause
        self.clauses.append(clause)
        self.need(b"class")
        self.peek()
        if self.kind != A_WORD:
            self.misfit()
        body = BODIES.get(self.word)
        if body is None:
            raise BadFile("UnknownClass", self.at)
        class_at = self.at
        self.take()
        body(self, clause, class_at)
        while self.option(b"attribute"):
            self.attribute(clause)

    def attribute(self, clause):
        """An attribute after its word."""
        name, at = self.quoted()
        if any(name == own for own, _ref in clause.attrs):
            raise BadFile("Syntax", at)
        if self.option(b"string"):
            value = Object("t", text=self.quoted()[0])
        elif self.option(b"number"):
            value = Object("a", Array(INT, (), PLAIN, 1, [self.number(INT_MIN, INT_MAX)]))
        else:
            value = self.reference(None)
        clause.attrs.append((name, value))

    def reference(self, wanted):
        """`[value] REF`: the name, its offset, and the kind of object that it has to name."""
        after_value = self.option(b"value")
        self.peek()
        if after_value and self.kind == A_WORD and self.word == b"file":
            raise BadFile("OtherFile", self.at)
        name, at = self.name()
        ref = (name, at, wanted)
        self.refs.append(ref)
        return ref

    def element_type(self):
        """`type` and the words of an element type."""
        self.peek()
        if self.kind == A_WORD and self.word != b"type":
            raise BadFile("FloatType", self.at)
        self.need(b"type")
        self.peek()
        if self.kind != A_WORD:
            self.misfit()
        if self.word in (b"float", b"double"):
            raise BadFile("FloatType", self.at)
        if self.word in SIMPLE_TYPES:
            self.take()
            return SIMPLE_TYPES[self.word]
        if self.word not in (b"signed", b"unsigned"):
            self.misfit()
        table = SIGNED_TYPES if self.word == b"signed" else UNSIGNED_TYPES
        self.take()
        self.peek()
        if self.kind != A_WORD or self.word not in table:
            self.misfit()
        self.take()
        return table[self.word]

    def head(self):
        """Type, shape and number of items."""
        elem = self.element_type()
        if self.option(b"category"):
            self.need(b"real")
        shape = []
        if self.option(b"rank"):
            rank = self.number(0, 2)
            if rank > 0:
                self.need(b"shape")
                shape = self.numbers(rank, 1, 256)
        self.need(b"items")
        items = self.number(0, float("inf"))
        width = 1
        for extent in shape:
            width *= extent
        if items > MAX_ITEMS or items * width > MAX_VALUES:
            raise BadFile("TooManyItems", self.at)
        return elem, shape, items, width

    def mode(self):
        """The order of bytes of binary data, or None where the data are text."""
        order, binary = "big", False
        self.peek()
        if self.kind == A_WORD and self.word in ORDERS:
            order = ORDERS[self.word]
            self.take()
        self.peek()
        if self.kind == A_WORD and self.word in (b"text", b"ascii", b"binary", b"ieee"):
            binary = self.word in (b"binary", b"ieee")
            self.take()
        self.need(b"data")
        self.peek()
        if self.kind == A_WORD and (self.word == b"file" or NUMBER.match(self.word)):
            raise BadFile("OtherFile", self.at)
        self.need(b"follows")
        return order if binary else None

    def data_values(self, elem, count, order):
        """The values after `follows`, as text or binary."""
        if order is None:
            low, high = TYPE_RANGE[elem]
            return self.numbers(count, low, high)
        data = self.data
        at = BLANKS.match(data, self.pos).end()
        if at == len(data):
            raise BadFile("Truncated", at)
        if data[at] != 10:
            raise BadFile("Syntax", at)
        width = TYPE_BYTES[elem]
        end = at + 1 + count * width
        if end > len(data):
            raise BadFile("Truncated", len(data))
        self.pos, self.ahead = end, False
        signed = TYPE_RANGE[elem][0] < 0
        return [int.from_bytes(data[i:i + width], order, signed=signed) for i in range(at + 1, end, width)]

    def array(self, clause, _class_at):
        """A plain array."""
        elem, shape, items, width = self.head()
        values = self.data_values(elem, items * width, self.mode())
        clause.kind, clause.array = "a", Array(elem, shape, PLAIN, items, values)

    def constant_array(self, clause, _class_at):
        """A constant array."""
        elem, shape, items, width = self.head()
        value = self.data_values(elem, width, self.mode())
        clause.kind, clause.array = "a", Array(elem, shape, CONSTANT, items, origin=value)

    def regular_array(self, clause, class_at):
        """A regular array, whose items are looked at after its last delta."""
        elem, shape, items, width = self.head()
        self.need(b"origin")
        origin = self.numbers(width, INT_MIN, INT_MAX)
        self.need(b"delta")
        delta = self.numbers(width, INT_MIN, INT_MAX)
        array = Array(elem, shape, REGULAR, items, origin=origin, deltas=delta)
        both = array.bounds()
        if both and (both[0] < TYPE_RANGE[elem][0] or both[1] > TYPE_RANGE[elem][1]):
            raise BadFile("ValueRange", class_at)
        clause.kind, clause.array = "a", array

    def counts(self, class_at, cells):
        """`counts` and one to three of them; the number of items shows with the last."""
        self.need(b"counts")
        counts = [self.number(1, UINT_MAX)]
        while len(counts) < 3 and self.counted_on(counts, class_at, cells):
            counts.append(self.number(1, UINT_MAX))
        self.check_items(counts, class_at, cells)
        return counts

    def counted_on(self, counts, class_at, cells):
        """Whether another count follows. A token that can't be read shows after the number of items."""
        try:
            return self.number_here() is not None
        except BadFile as fault:
            if fault.kind == "Syntax":
                self.check_items(counts, class_at, cells)
            raise

    @staticmethod
    def check_items(counts, class_at, cells):
        """TooManyItems at the class word beyond the limit."""
        items = 1
        for count in counts:
            items *= count - 1 if cells else count
        if items > MAX_ITEMS:
            raise BadFile("TooManyItems", class_at)

    def grid_positions(self, clause, class_at):
        """Positions of a grid, whose items are looked at after the last delta."""
        counts = self.counts(class_at, False)
        n = len(counts)
        self.need(b"origin")
        origin = self.numbers(n, INT_MIN, INT_MAX)
        deltas = []
        for _ in range(n):
            self.need(b"delta")
            deltas += self.numbers(n, INT_MIN, INT_MAX)
        low, high = grid_bounds(counts, origin, deltas)
        if low < INT_MIN or high > INT_MAX:
            raise BadFile("ValueRange", class_at)
        items = 1
        for count in counts:
            items *= count
        clause.kind = "a"
        clause.array = Array(INT, (n,), GRID, items, origin=origin, deltas=deltas, counts=counts)

    def grid_connections(self, clause, class_at):
        """Connections of a grid."""
        counts = self.counts(class_at, True)
        items = 1
        for count in counts:
            items *= count - 1
        clause.kind, clause.array = "a", Array(INT, (2 ** len(counts),), CELLS, items, counts=counts)

    def string(self, clause, _class_at):
        """A text."""
        clause.text = self.quoted()[0]
        clause.kind = "t"

    def field(self, clause, _class_at):
        """Components and attributes of a field."""
        clause.kind = "f"
        names = set()
        while True:
            if self.option(b"component"):
                name, at = self.quoted()
                if name in names:
                    raise BadFile("Syntax", at)
                names.add(name)
                clause.parts.append((name, 0, self.reference("array")))
            elif self.option(b"attribute"):
                self.attribute(clause)
            else:
                return

    def group(self, clause, _class_at, wanted=None):
        """Members and attributes of a group."""
        clause.kind = "g"
        names = set()
        while True:
            if self.option(b"member"):
                name = self.member_name(len(clause.parts), names)
                clause.parts.append((name, 0, self.reference(wanted)))
            elif self.option(b"attribute"):
                self.attribute(clause)
            else:
                return

    def composite(self, clause, class_at):
        """Members and attributes of a composite field."""
        clause.composite = True
        self.group(clause, class_at, "field")

    def member_name(self, place, names):
        """A quoted name, or None where the member's index stands."""
        self.peek()
        if self.kind == A_QUOTED:
            name, at = self.quoted()
            if name in names:
                raise BadFile("Syntax", at)
            names.add(name)
            return name
        self.index(place)
        return None

    def index(self, place):
        """The index of a member, which has to be its place."""
        n = self.number_here()
        if n is None or n != place:
            self.misfit()
        self.take()

    def series(self, clause, _class_at):
        """Members with positions, and attributes of a series."""
        clause.kind = "s"
        while True:
            if self.option(b"member"):
                self.index(len(clause.parts))
                self.need(b"position")
                position = self.number(INT_MIN, INT_MAX)
                clause.parts.append((None, position, self.reference(None)))
            elif self.option(b"attribute"):
                self.attribute(clause)
            else:
                return

    # After the clauses.

    def check_references(self):
        """The first reference in the file's order that names nothing or the wrong kind."""
        refs = list(self.refs)
        if self.default is not None:
            refs.append((self.default[0], self.default[1], None))
        refs.sort(key=lambda ref: ref[1])
        for name, at, wanted in refs:
            clause = self.by_name.get(name)
            if clause is None:
                raise BadFile("NoObject", at)
            if wanted == "array" and clause.kind != "a" or wanted == "field" and clause.kind != "f":
                raise BadFile("BadPart", at)

    def chosen(self, which):
        """The clause of the object meant."""
        if which is not None:
            clause = self.by_name.get(which)
        elif self.default is not None:
            clause = self.by_name[self.default[0]]
        else:
            clause = self.clauses[-1] if self.clauses else None
        if clause is None:
            raise BadFile("NoVariable", len(self.data))
        return clause

    def measure(self, top):
        """Levels, objects and size of the clauses below one, by clause; TooDeep at a cycle."""
        done, path = {}, {top.name}
        stack = [(top, iter(self.refs_of(top)))]
        while stack:
            clause, rest = stack[-1]
            for ref in rest:
                if ref[0] in done:
                    continue
                if ref[0] in path:
                    raise BadFile("TooDeep", top.at)
                below = self.by_name[ref[0]]
                path.add(below.name)
                stack.append((below, iter(self.refs_of(below))))
                break
            else:
                done[clause.name] = self.sums(clause, done)
                path.discard(clause.name)
                stack.pop()
        return done

    @staticmethod
    def refs_of(clause):
        """The references of a clause's parts and attributes."""
        return [p[2] for p in clause.parts] + [v for _n, v in clause.attrs if isinstance(v, tuple)]

    @staticmethod
    def sums(clause, done):
        """Levels, objects and size of a clause whose references are measured."""
        size = clause.array.size() if clause.array else 64 + (len(clause.text) if clause.text is not None else 0)
        levels, count = 0, 1
        for name, _position, ref in clause.parts:
            deep, many, big = done[ref[0]]
            size += (len(name) if name is not None else 0) + (4 if clause.kind == "s" else 0) + big
            levels, count = max(levels, deep), count + many
        for name, value in clause.attrs:
            deep, many, big = done[value[0]] if isinstance(value, tuple) else (1, 1, value.size)
            size += len(name) + big
            levels, count = max(levels, deep), count + many
        return levels + 1, count, size

    def build(self, top):
        """The object of a clause, each reference replaced."""
        made = {}

        def make(clause):
            obj = made.get(clause.name)
            if obj is None:
                parts = [(n, p, make(self.by_name[r[0]])) for n, p, r in clause.parts]
                attrs = [(n, make(self.by_name[v[0]]) if isinstance(v, tuple) else v) for n, v in clause.attrs]
                obj = Object(clause.kind, clause.array, clause.text, parts, attrs, clause.composite)
                made[clause.name] = obj
            return obj

        return make(top)


BODIES = {b"array": Reader.array, b"constantarray": Reader.constant_array, b"regulararray": Reader.regular_array,
          b"gridpositions": Reader.grid_positions, b"gridconnections": Reader.grid_connections,
          b"string": Reader.string, b"field": Reader.field, b"group": Reader.group,
          b"compositefield": Reader.composite, b"series": Reader.series}


def read_object(data, which):
    """The object that a file means; BadFile where it is refused."""
    reader = Reader(data)
    reader.file()
    reader.check_references()
    top = reader.chosen(which)
    levels, count, size = reader.measure(top)[top.name]
    if levels > MAX_LEVELS:
        raise BadFile("TooDeep", top.at)
    if count > MAX_OBJECTS or size > MAX_SIZE:
        raise BadFile("TooLarge", top.at)
    return reader.build(top)
