"""Random sessions: files, words and a text that uses modules, links, macros, sequencer and exports."""

from .functions import MODULES
from .samples import random_field, random_file, random_object
from .native_write import write_object
from .churn import CacheWriter

TOP_NAMES = ["a", "b", "c", "d", "x", "y", "play"]
LINKS = ['"n"', '"n"', '"s"', "NULL", '"a b"']
OUTS = ['"o"', '"o"', '"p"', '"f0.dx"', '"q"']
COMPONENTS = ['"data"', '"data"', '"positions"', '"connections"', '"a"', '"extra"', '"saved data"']
FRAMES = ["@frame", "@frame", "@frame", "@nextframe", "@startframe", "@endframe", "@deltaframe"]
INQUIRIES = ["is null", "is array", "is string", "is field", "is group", "is series", "items", "rank", "type",
             "shape", "member count", "grid counts", "grid counts", "colour", ""]
OPTIONS = ['"d"', '"d"', '"d"', '"d"', '"rd"', '"rd"', '"r"', '"o"', '"rD"', "NULL"] * 3 + ['""', '"dx"']


KINDS = {"a": "array", "t": "text", "f": "field", "g": "group", "s": "series"}
SMALL = ("number", "array", "any")
FITTING = {"number": ("number", "array", "any"), "array": ("array", "any"), "text": ("text", "any"),
           "field": ("field", "array", "any"), "group": ("group", "any"), "series": ("series", "group", "any"),
           "any": ("any", "array", "field")}


class Writer:
    """Writes one session from a random source."""

    def __init__(self, rng):
        self.rng = rng
        self.files, self.kinds_of_files = {}, {}
        self.macros = []
        self.names = {}

    def pick(self, *choices):
        """One of the choices."""
        return self.rng.choice(choices)

    def chance(self, p):
        """True so often."""
        return self.rng.random() < p

    # Constants.

    def integer(self):
        """An integer in some spelling."""
        rng = self.rng
        n = rng.choice([rng.randint(-9, 9), rng.randint(0, 60), 2147483647, -2147483648,
                        rng.randint(-10 ** 9, 10 ** 9)]) if self.chance(0.1) else rng.randint(0, 4)
        text = str(n)
        if self.chance(0.05):
            text = ("+" if n >= 0 else "") + text + self.pick("", ".", ".0", ".000")
        return text

    def string(self):
        """A string constant."""
        return self.pick('"a"', '"data"', '"x"', '""', '"q\\"t"', '"l\\\\m\\n"', '"dx"', '"y"', '"//"', '"$0"')

    def number_list(self):
        """A list of integers or a range."""
        rng = self.rng
        if self.chance(0.2):
            low, high = rng.randint(-4, 6), rng.randint(-4, 9)
            step = self.pick("", "", " : 2", " : -1", ":-3", ": 3.0")
            return "{%d %s %d%s}" % (low, self.pick("..", ".."), high, step)
        separator = self.pick(" ", " ", ", ", ",")
        return "{" + separator.join(self.integer() for _ in range(rng.choice([0, 1, 2, 3, 3, 4, 5, 12] if self.chance(0.97) else [55]))) + "}"

    def vector(self, width=None):
        """A vector."""
        width = width or self.rng.choice([1, 2, 2, 3])
        return "[" + self.pick(" ", ", ").join(self.integer() for _ in range(width)) + "]"

    def constant(self):
        """Any constant."""
        form = self.rng.random()
        if form < 0.4:
            return self.integer()
        if form < 0.5:
            return self.string()
        if form < 0.7:
            return self.number_list()
        if form < 0.78:
            return self.vector()
        if form < 0.86:
            width = self.rng.choice([1, 2, 3])
            return "{" + " ".join(self.vector(width) for _ in range(self.rng.choice([1, 2, 3]))) + "}"
        if form < 0.93:
            return "{" + " ".join(self.string() for _ in range(self.rng.choice([1, 2, 3]))) + "}"
        return "NULL"

    # Compute.

    def formula(self, inputs, depth):
        """An expression over so many inputs."""
        rng = self.rng
        if depth == 0 or self.chance(0.2):
            if inputs and self.chance(0.75):
                return "$%d" % rng.randrange(inputs)
            return str(rng.choice([0, 1, 2, 3, 7, 2147483647]) if self.chance(0.9) else rng.randint(0, 10 ** 10))
        form = rng.random()
        inner = lambda: self.formula(inputs, depth - 1)  # noqa: E731
        if form < 0.45:
            return inner() + self.pick(" + ", "+", " - ", "*", " / ", " % ", "*") + inner()
        if form < 0.52:
            return "(" + inner() + ")"
        if form < 0.6:
            return inner() + self.pick("==", "!=", "<", "<=", ">", ">=", "&&", "||") + inner()
        if form < 0.67:
            return inner() + " ? " + inner() + " : " + inner()
        if form < 0.75:
            return self.pick("-", "!", "- ") + inner()
        if form < 0.84:
            return "[" + ", ".join(inner() for _ in range(rng.choice([1, 2, 2, 3]))) + "]"
        if form < 0.89:
            return inner() + "." + str(rng.randint(0, 2))
        name = self.pick("abs", "sign", "min", "max", "dot")
        return name + "(" + (inner() if name in ("abs", "sign") else inner() + "," + inner()) + ")"

    def compute(self, depth, kind="array"):
        """A call of Compute."""
        inputs = self.rng.choice([0, 1, 1, 2, 2, 3]) if kind in SMALL else self.rng.choice([1, 1, 2])
        text = self.formula(inputs, self.rng.choice([1, 1, 2, 3]))
        if self.chance(0.03):
            at = self.rng.randint(0, len(text))
            text = text[:at] + self.pick("$", ")", "?", ".", "x", "1", " ", "&", "[", "999", "") + text[at + 1:]
        given = [self.pick(kind, kind, "number") for _ in range(inputs)]
        if kind not in SMALL and kind not in given:
            given[0] = kind
        args = ['"' + text + '"'] + [self.value(depth - 1, own) for own in given]
        return "Compute(" + ", ".join(args) + ")" + self.attributes()

    def attributes(self):
        """The attributes of a call."""
        form = self.rng.random()
        if form < 0.7:
            return ""
        return self.pick("[cache: 0]", " [cache: 2]", " [instance: 1, cache: 1]", "[instance: 2]", "[cache: 2]",
                         "[cache: 0, cache: 2]")

    # Expressions.

    def value(self, depth, kind="any"):
        """An expression that mostly has the kind."""
        form = self.rng.random()
        if form < 0.03:
            kind = "any"
        names = [n for n, own in self.names.items() if kind in FITTING[own]]
        if names and form < 0.45:
            return self.rng.choice(names)
        if depth <= 0 and kind in ("group", "series", "text") or kind in SMALL and (depth <= 0 or form < 0.5):
            return self.simple(kind)
        if depth <= 0:
            return self.load(kind)
        if form < 0.57:
            return self.control(depth, kind)
        calls = [m for m in self.macros if m[2]]
        if form < 0.61 and calls:
            return self.macro_call(depth, calls)
        return self.module(depth, kind)

    def simple(self, kind):
        """An expression without a call."""
        if kind in ("array", "number"):
            if self.chance(0.12):
                return self.rng.choice(FRAMES)
            if kind == "number" or self.chance(0.4):
                return self.integer()
            return self.pick(self.number_list(), self.number_list(), self.vector(), self.constant())
        if kind == "text":
            return self.string()
        if kind == "group":
            return "{" + " ".join(self.string() for _ in range(self.rng.choice([1, 2, 3]))) + "}"
        if kind == "series":
            return "CollectSeries(%s, %s, %s, 2)" % (self.integer(), self.integer(), self.number_list())
        return self.constant()

    def load(self, kind):
        """An Import of one of the files, of that kind where there is one."""
        fit = [n for n, own in sorted(self.kinds_of_files.items()) if own == kind or kind == "any"]
        if not fit and self.chance(0.7):
            return self.constant()
        fit = fit if fit and self.chance(0.97) else sorted(self.files) + ["o", "p", "none.dx"]
        name = '"%s"' % self.rng.choice(fit)
        more = ""
        if self.chance(0.08):
            more = self.pick(', "1"', ", NULL", ', "f"', ', NULL, "dx"', ', NULL, "hdf"', ", NULL, NULL, 1", ", 5",
                             ', variable = "1"', ', format = "dx"', ", NULL, NULL, NULL")
        elif self.chance(0.08):
            name = self.pick("5", "NULL", "GetGlobal(%s, \"n\")" % name, "Select({%s \"o\"}, %s)" %
                             (name, self.pick("0", "0", "1", "2")), "Select({%s \"o\"}, 0)[cache: 0]" % name,
                             'Compute("1/0")', "Switch(%s, %s)" % (self.pick("1", "1", "2", "@frame"), name))
        return "Import(" + name + more + ")" + self.attributes()

    def control(self, depth, kind):
        """Switch, Route, a Get or a Set."""
        form = self.rng.random()
        if form < 0.4:
            args = [self.value(depth - 1, "number")] + [self.value(depth - 1, kind)
                                                        for _ in range(self.rng.randint(1, 3))]
            return "Switch(" + ", ".join(args) + ")"
        if form < 0.55:
            return "Route(" + self.pick("1", "1", self.value(depth - 1, "number")) + ", " + self.value(
                depth - 1, kind) + ")"
        if form < 0.92:
            return "%s(%s, %s)" % (self.pick("GetGlobal", "GetGlobal", "GetLocal"), self.value(depth - 1, kind),
                                   self.rng.choice(LINKS) if self.chance(0.95) else self.value(depth - 1))
        return "%s(%s, %s)" % (self.pick("SetGlobal", "SetLocal"), self.value(depth - 1, kind),
                               self.rng.choice(LINKS))

    MAKERS = {"number": ["Compute", "Compute", "Compute", "Statistics", "Inquire"],
              "array": ["Compute", "Compute", "Compute", "Extract", "Select", "Inquire"],
              "field": ["Import", "Import", "Compute", "Slab", "Replace", "Mark", "Unmark", "Histogram", "Select"],
              "group": ["Collect", "Collect", "CollectNamed", "Compute", "Extract", "Import"],
              "series": ["CollectSeries", "CollectSeries", "Slab", "Compute", "Import", "Extract"],
              "text": ["Inquire", "Select"]}

    def module(self, depth, kind):
        """A call of a module, with arguments that mostly fit."""
        rng = self.rng
        name = rng.choice(self.MAKERS.get(kind) or sorted(m.decode() for m in MODULES))
        v = lambda k="any": self.value(depth - 1, k)  # noqa: E731
        if name == "Compute":
            return self.compute(depth, kind if kind != "any" else self.pick("array", "array", "field", "group"))
        if name == "Import":
            return self.load(kind)
        if name == "Collect":
            args = [v() for _ in range(rng.randint(1, 3))]
        elif name == "CollectNamed":
            named = ['"a"', '"b"', "NULL", '"c"', '"data"']
            rng.shuffle(named)
            args = [a for i in range(rng.randint(1, 3)) for a in (v(), named[i] if self.chance(0.95) else v())]
        elif name == "CollectSeries":
            args = [a for _ in range(rng.randint(1, 3)) for a in (v(), self.integer() if self.chance(0.95) else v())]
        else:
            args = self.fitting(name, v, kind)
        if args and self.chance(0.03):
            args = args[:-1]
        return name + "(" + ", ".join(args) + ")" + self.attributes()

    def fitting(self, name, v, kind):
        """The arguments of a module with few parameters."""
        component = lambda: self.rng.choice(COMPONENTS) if self.chance(0.95) else v("text")  # noqa: E731
        many = self.pick("group", "group", "series")
        if name == "Select":
            return [v(many), self.pick("0", "0", "1", '"a"', "NULL", v("number"))] + (["1"] if self.chance(0.03)
                                                                                   else [])
        if name == "Extract":
            return [v(kind if kind in ("group", "series") else "field")] + ([component()] if self.chance(0.5) else [])
        if name == "Replace":
            return [v(self.pick("array", "field")) if self.chance(0.9) else "NULL", v("field")] + [
                component() for _ in range(self.rng.randint(0, 2))]
        if name in ("Mark", "Unmark"):
            return [v("field"), component()]
        if name == "Slab":
            whole = "NULL" if kind == "series" else self.pick("NULL", "0", "0", "1", "2", v("number"))
            return [v("field"), self.pick('"x"', '"y"', "0", "0", "1", "2", '"z"'), whole] + (
                [self.pick("0", "1", "2", "NULL", v("number"))] if self.chance(0.5) else [])
        if name == "Statistics":
            return [v("array")]
        if name == "Histogram":
            args = [v(self.pick("array", "array", "field")), self.pick("1", "2", "3", "5", v("number"))]
            return args + [self.pick("NULL", self.integer()) for _ in range(self.rng.choice([0, 0, 1, 2]))]
        wanted = {"text": ["type"], "number": INQUIRIES[:8] + ["member count"]}.get(kind, INQUIRIES)
        return [v(self.pick("any", "array", "field", "group", "series")), '"%s"' % self.rng.choice(wanted)]

    # Statements.

    def macro_call(self, depth, calls=None):
        """A call of a macro, at times with an error in its arguments."""
        name, params, _results = self.rng.choice(calls or self.macros)
        args = [self.value(depth - 1) for _ in range(self.rng.randint(0, len(params)))]
        if len(params) > len(args) and self.chance(0.2):
            args.append(params[-1] + " = " + self.value(depth - 1))
        if self.chance(0.015):
            args.append(self.pick("1", "zz = 2", "1, 2, 3, 4"))
        return name + "(" + ", ".join(args) + ")"

    def effect(self, depth):
        """A call of an effect."""
        form = self.rng.random()
        if form < 0.5:
            options = self.rng.choice(OPTIONS) if self.chance(0.95) else self.value(0)
            more = ", " + self.rng.choice(COMPONENTS) if self.chance(0.07) else ""
            return "Print(" + self.value(depth) + ", " + options + more + ")"
        if form < 0.65:
            return "Echo(" + ", ".join(self.value(depth - 1) for _ in range(self.rng.randint(0, 3))) + ")"
        if form < 0.77:
            more = self.pick("", "", "", ', "dx"', ', "hdf"', ", NULL", ", 3")
            name = self.rng.choice(OUTS) if self.chance(0.95) else self.pick('""', "5", "NULL")
            return "Export(" + self.value(depth) + ", " + name + more + ")"
        return "%s(%s, %s)" % (self.pick("SetGlobal", "SetGlobal", "SetLocal"), self.value(depth),
                               self.rng.choice(LINKS[:3] + LINKS[4:]) if self.chance(0.95) else self.value(0))

    def assignment(self, depth):
        """An assignment."""
        form = self.rng.random()
        calls = [m for m in self.macros if m[2]]
        if form < 0.75 or form >= 0.9 and not calls:
            kind = self.pick("number", "array", "array", "field", "field", "group", "series", "any")
            target = self.rng.choice(TOP_NAMES)
            line = target + " = " + self.value(depth, kind) + ";"
        elif form < 0.9:
            kind, call, most = self.pick(
                ("any", "Route(%s, %s)" % (self.value(0, "number"), self.value(depth - 1)), 3),
                ("number", "Statistics(%s)" % self.value(depth - 1, "array"), 5),
                ("any", "GetGlobal(%s, %s)" % (self.value(0), self.rng.choice(LINKS)), 2),
                ("any", "GetLocal(%s, %s)" % (self.value(0), self.rng.choice(LINKS)), 2),
                ("field", "Histogram(%s, 3)" % self.value(depth - 1, "array"), 2))
            target = ", ".join(self.rng.choice(TOP_NAMES) for _ in range(self.rng.randint(1, most)))
            line = target + " = " + call + self.attributes() + ";"
        else:
            own = self.rng.choice(calls)
            kind, many = "any", self.rng.randint(1, len(own[2]))
            target = ", ".join(self.rng.choice(TOP_NAMES) for _ in range(many))
            line = target + " = " + self.macro_call(depth, [own]) + ";"
        if self.chance(0.01):
            target += ", y"
        self.names = dict(self.names)
        for own in target.split(", "):
            self.names[own] = kind
        return line

    def macro(self, i):
        """A macro definition; it may call those before it."""
        rng = self.rng
        name = rng.choice(["m", "main", "w", "Select"] if self.chance(0.1) else ["m", "main", "w"])
        params = rng.sample(["a", "b", "u", "v"], rng.randint(0, 2))
        results = rng.sample(["r", "a", "x", "t"], rng.choice([0, 1, 1, 2]))
        shown = [p + (" = " + self.constant() if self.chance(0.3) else "") for p in params]
        outer = self.names
        self.names = dict([(p, "any") for p in params] + [(n, outer.get(n, "any")) for n in rng.sample(TOP_NAMES, 2)])
        body = []
        for _ in range(rng.randint(1, 4)):
            if self.chance(0.55):
                target, kind = self.rng.choice(["r", "a", "x", "t", "k"]), self.pick("number", "array", "any", "field")
                body.append(target + " = " + self.value(2, kind) + ";")
                self.names = dict(self.names)
                self.names[target] = kind
            elif self.macros and self.chance(0.2):
                body.append(self.macro_call(1) + ";")
            elif self.chance(0.1):
                body.append("t, k = Route(%s, %s);" % (self.value(0, "number"), self.value(1)))
            else:
                body.append(self.effect(1) + ";")
        self.names = outer
        if rng.random() < 0.05:
            body.append('Executive("x", Print(1));')
        arrow = " -> (" + ", ".join(results) + ")" if results or self.chance(0.3) else ""
        self.macros = self.macros + [(name, params, results)]
        return "macro " + name + "(" + ", ".join(shown) + ")" + arrow + " { " + " ".join(body) + " }"

    def sequencer(self):
        """A statement of the sequencer."""
        form = self.rng.random()
        if form < 0.3:
            return self.pick("play;", "play;", "step;", "step;", "stop;", "forward;", "backward;", "loop on;",
                             "loop off;", "palindrome on;", "palindrome off;")
        if form < 0.45:
            call = self.macro_call(1) if self.macros and self.chance(0.8) else self.effect(1)
            return "sequence " + call + ";"
        name = self.rng.choice(FRAMES)
        if self.chance(0.1):
            number = self.pick("2147483647", "-2147483648")
        elif name == "@deltaframe":
            number = self.pick("1", "2", "3", "0", "-1", "5")
        else:
            number = str(self.rng.randint(-3, 9))
        if self.chance(0.15):
            number = self.rng.choice(FRAMES)
        return name + " = " + number + ";"

    def statement(self):
        """Any statement of the top level."""
        form = self.rng.random()
        if form < 0.3:
            return self.assignment(3)
        if form < 0.72:
            return self.effect(3) + ";"
        if form < 0.84 and self.macros:
            return self.macro_call(2) + ";"
        if form < 0.96:
            return self.sequencer()
        return self.pick("", "$sync", "// note", 'Executive("x");', ";;", "  $ x = 1;", "  // \"", ";")

    def preamble(self):
        """Definitions of each kind, and a file with a field where there is none."""
        if "field" not in self.kinds_of_files.values():
            self.files["f2.dx"], self.kinds_of_files["f2.dx"] = write_object(random_field(self.rng)), "field"
        lines = []
        for name, kind in zip(self.rng.sample(TOP_NAMES, 4), ("field", "array", "number", "group")):
            value = self.load("field") if kind == "field" else self.module(1, kind)
            lines.append(name + " = " + value + ";")
            self.names[name] = kind
        return lines

    def session(self):
        """The statements of a session."""
        rng = self.rng
        for i in range(rng.choice([0, 1, 1, 2])):
            name = "f%d.dx" % i
            if self.chance(0.1):
                self.files[name], self.kinds_of_files[name] = random_file(rng)[0], "field"
                continue
            obj = random_field(rng) if self.chance(0.6) else random_object(rng)
            self.files[name], self.kinds_of_files[name] = write_object(obj), KINDS[obj.kind]
        out = []
        if self.chance(0.7):
            out += self.preamble()
        if self.chance(0.6):
            # A range that a play can go through.
            out.append("@endframe = %d;" % rng.randint(1, 6))
        for _ in range(rng.choice([0, 1, 1, 2, 3])):
            out.append(self.macro(len(out)))
        for _ in range(rng.randint(2, 14)):
            if out and self.chance(0.2):
                out.append(rng.choice(out))
            elif self.chance(0.04):
                out.append(self.macro(len(out)))
            else:
                out.append(self.statement())
        if self.chance(0.04):
            self.files["i.net"] = "\n".join(self.statement() for _ in range(2)).encode()
            out.insert(rng.randint(0, len(out)), 'include "%s"' % self.pick("i.net", "i.net", "no.net", "s.net"))
        return out


def spoil(rng, text):
    """A script with a byte or a word changed."""
    signs = b';(){}[],=:".$-+@/ \n0159aN\\'
    for _ in range(rng.choice([1, 1, 2])):
        at = rng.randint(0, len(text))
        form = rng.random()
        if form < 0.3:
            text = text[:at] + bytes([rng.choice(signs)]) + text[at + 1:]
        elif form < 0.5:
            text = text[:at] + text[at + rng.randint(1, 3):]
        elif form < 0.7:
            text = text[:at] + bytes([rng.choice(signs)]) + text[at:]
        elif form < 0.8:
            text = text[:at]
        else:
            word = rng.choice([b"1.5", b"NULL", b"..", b"->", b"macro", b"1e5", b"99999999999", b"@frame", b"{", b"}",
                               b"cache: 3", b"@frames", b".5", b"\xc3", b'"a', b'"\\x"', b"play", b"{1 .. 70000}",
                               b"[]", b"{1 \"a\"}", b"include", b"1.0", b"{[1] [1 2]}", b"//"])
            text = text[:at] + word + text[at:]
    return text


def budget_words(rng):
    """The words of the command line beside the session."""
    words = []
    if rng.random() < 0.85:
        words.append("--trace")
    if rng.random() < 0.45:
        words.append("--links")
    form = rng.random()
    if form < 0.75:
        budget = rng.choice([0, 67, 68, 69, 72, 135, 136, 137, 204, 272, 340, 341, 408, 500, 601, 680, 1000,
                             rng.randint(0, 1000), rng.randint(0, 1000), rng.randint(0, 5000)])
        words += rng.choice([["--memory", str(budget)], ["--memory=%d" % budget]])
    words.insert(rng.randint(0, len(words)) if "--memory" not in words else 0, "s.net")
    return words


def random_session(rng):
    """Words, files by name, and the lines of the session's text."""
    writer = Writer(rng) if rng.random() < 0.6 else CacheWriter(rng)
    lines = writer.session()
    text = rng.choice(["\n", "\n", " "]).join(lines).encode()
    if rng.random() < 0.12:
        text = spoil(rng, text)
    if rng.random() < 0.5:
        text += b"\n"
    files = dict(writer.files)
    return budget_words(rng), {name.encode(): data for name, data in files.items()}, text


JUNK = ["--trace", "--links", "--memory", "--memory=5", "--memory=", "0", "68", "s.net", "s.net", "-", "--", "--help",
        "-h", "--workload", "--workload=1", "1", "100001", "0100", "1099511627776", "1099511627777",
        "--memory=1099511627776", "--memory=01099511627776", "+5", "-5", "--trace=1", "--version", "-V", "", "--mem",
        "--slots", "--memory=0x1", "--workload=0", "3"]


def random_line(rng):
    """Words that may be no line."""
    form = rng.random()
    if form < 0.3:
        words = ["s.net"]
        for option in (["--trace"], ["--links"], ["--memory", "68"], ["--memory=0"], ["--workload=2"], ["--"]):
            if rng.random() < 0.3:
                at = rng.randint(0, len(words))
                words[at:at] = option
        return words
    return [rng.choice(JUNK) for _ in range(rng.randint(0, 4))]
