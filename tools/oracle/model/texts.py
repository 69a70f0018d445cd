"""Small random scripts that dwell on tokens, grammar and limits, mostly damaged."""

from .sessions import spoil

NUMBERS = ["0", "1", "-1", "+1", "007", "1.", "1.0", "1.00", "-0", "+0.0", "2147483647", "-2147483648", "2147483648",
           "-2147483649", "99999999999999999999", "1.5", "1.05", "1e5", "1.e5", "1.0E-3", "1e", "1.0e", ".5", "-.5",
           "+.5", "- 1", "1..2", "1...2", "1.0..2", "1.0.5", "1-2", "1a", "1.x", "00000000000000000000001", "+", "-",
           ".", "..", "1e+", "1E+5", "0x1", "1_0", "1.0.0"]
STRINGS = ['""', '"a"', '"a\\"b"', '"\\\\"', '"\\n"', '"\\t"', '"a\\', '"a', '"a\nb"', '"a\\\nb"', '"//"', '"$"',
           '"\\x" y"', '"\xe9"', '"a""b"', '"a\\"']
SPACES = [" ", "", "  ", "\t", "\r\n", "\n", " // c\n", "\n$ skipped ; \"\n", "\n \t$\n", " /", "//", "\n//", "\r", "\f"]


class Texts:
    """Writes one script."""

    def __init__(self, rng):
        self.rng = rng

    def pick(self, *choices):
        """One of the choices."""
        return self.rng.choice(choices)

    def space(self):
        """White space, mostly plain."""
        return self.rng.choice(SPACES) if self.rng.random() < 0.15 else " "

    def number(self):
        """A number, at times in an odd spelling."""
        return self.rng.choice(NUMBERS) if self.rng.random() < 0.3 else str(self.rng.randint(-3, 9))

    def string(self):
        """A string, at times an odd one."""
        return self.rng.choice(STRINGS) if self.rng.random() < 0.5 else '"s"'

    def name(self):
        """A name, at times a word of the grammar."""
        return self.pick("a", "b", "x_1", "_", "play", "loop", "on", "off", "sequence", "step", "NULL", "macro",
                         "include", "Echo", "Executive", "cache", "A" * 255, "A" * 256) if (
                             self.rng.random() < 0.35) else self.pick("a", "b", "c", "Echo")

    def list(self):
        """A list, a range or a vector."""
        rng = self.rng
        form = rng.random()
        if form < 0.2:
            step = self.pick("", "", ":" + self.number(), " : 2", " : -1", ":0")
            low, high = self.pick(self.number(), "1", "5"), self.pick(self.number(), "3", "65536", "65537", "70000")
            return "{" + low + self.space() + ".." + self.space() + high + step + self.pick("", "", " y", ",") + "}"
        if form < 0.3:
            return "[" + self.pick(" ", ",", ", ").join(self.number() for _ in range(rng.randint(0, 4))) + "]"
        if form < 0.34:
            return "[" + "1 " * self.pick(255, 256, 257) + self.pick("]", "] ", ", 1]", "x]", "")
        if form < 0.38:
            many = self.pick(65535, 65536, 65537)
            last = self.pick('"a"', "1", "[1]", "1.5", "[1", "y", "}")
            return "{" + self.pick("1 ", '"a"', "[1]", "1,") * many + last + self.pick("}", "", " }")
        kind = rng.randrange(4)
        make = [self.number, self.string, lambda: "[" + " ".join(["1"] * rng.choice([1, 2, 2])) + "]",
                lambda: self.pick(self.number(), self.string(), self.name())][kind]
        return "{" + self.pick(" ", ",", ", ", ",,").join(make() for _ in range(rng.randint(0, 4))) + "}"

    def expression(self, depth):
        """An expression."""
        form = self.rng.random()
        if form < 0.3:
            return self.number()
        if form < 0.4:
            return self.string()
        if form < 0.55:
            return self.list()
        if form < 0.7 or depth == 0:
            return self.name()
        if form < 0.75:
            return self.pick("@frame", "@startframe", "@nextframe", "@", "@x", "@frames", "@ frame")
        return self.call(depth - 1)

    def call(self, depth):
        """A call, at times with names for its arguments, and with attributes."""
        rng = self.rng
        args = []
        for _ in range(rng.randint(0, 3)):
            named = rng.random() < 0.25
            args.append((self.name() + self.space() + "=" if named else "") + self.expression(depth))
        attrs = ""
        if rng.random() < 0.25:
            attrs = self.space() + "[" + ", ".join(
                self.pick("cache", "cache", "instance", self.name()) + ":" + self.space() +
                self.pick("0", "1", "2", "3", "-1", "2.0", '"a"', self.number(), self.string())
                for _ in range(rng.randint(1, 3))) + "]"
        return self.name() + self.space() + "(" + self.pick(", ", ",", " ,").join(args) + ")" + attrs

    def deep(self):
        """Calls in calls about as deep as they may be."""
        depth = self.pick(62, 63, 64, 65)
        return "Echo(" * depth + self.pick("", "1", "b(", "b()", "c") + ")" * self.pick(depth, depth - 1)

    def macro(self):
        """A macro definition, at times with many parameters."""
        rng = self.rng
        if rng.random() < 0.2:
            many = ", ".join("p%d" % i for i in range(self.pick(63, 64, 65)))
            return "macro m(" + self.pick(many, "") + ") -> (" + self.pick(many, "") + ") {}"
        params = ", ".join(self.name() + (self.space() + "=" + self.expression(0) if rng.random() < 0.3 else "")
                           for _ in range(rng.randint(0, 3)))
        arrow = self.pick("", "", "->" + self.space() + "(" + ", ".join(self.name() for _ in range(rng.randint(0, 2))) +
                          ")", "->", "- > ()", "-> r")
        body = " ".join(self.statement(False) for _ in range(rng.randint(0, 2)))
        return "macro " + self.name() + "(" + params + ")" + self.space() + arrow + self.space() + "{" + body + "}"

    def statement(self, top=True):
        """A statement."""
        form = self.rng.random()
        if form < 0.4:
            return self.name() + self.space() + "=" + self.space() + self.expression(2) + self.pick(";", ";", ";", "")
        if form < 0.5:
            names = [self.name() for _ in range(self.rng.randint(2, 3))]
            return ", ".join(names) + self.space() + "= " + self.pick(self.call(1), self.call(1), "1", "a") + ";"
        if form < 0.75:
            return self.pick(self.call(2), self.call(2), self.deep()) + self.pick(";", ";", ";", "", " ;")
        if not top and form < 0.95:
            return ";"
        if form < 0.82:
            return self.macro()
        if form < 0.92:
            return self.pick("play;", "play ;", "loop on;", "loop  off ;", "loop;", "palindrome on;", "stop", "step;;",
                             "sequence a();", "sequence Echo(1);", "sequence;", "forward;", "backward;", "loop on off;",
                             "play = 1;", "loop(1);", "sequence(1);", "on = 1;")
        return self.pick("@frame = 1;", "@deltaframe = 0;", "@nextframe = @frame;", "@frame = a;", "@frame 1;",
                         "@endframe=" + self.number() + ";", 'include "none"', 'include "e.net"', "include e",
                         'include "e.net";', "Executive(1.5);", "Executive(Echo(1), a = 2);", "Executive();",
                         "Executive(1, b = 2, 3);", "x = Executive();", "\xef\xbb\xbf", "\x00", "#", "'a'")


def random_script(rng):
    """The bytes of a small script."""
    texts = Texts(rng)
    parts = []
    for _ in range(rng.choice([1, 1, 2, 3, 4])):
        parts.append(texts.statement())
        parts.append(rng.choice(SPACES + ["\n"] * 10))
    if rng.random() < 0.6:
        parts.append('Echo(a, b); Print(c, "d");')
    text = "".join(parts).encode("latin-1")
    if rng.random() < 0.25 and len(text) < 2000:
        text = spoil(rng, text)
    return text
