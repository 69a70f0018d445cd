"""Small random sessions that dwell on the sequencer, or on the modules over imported objects."""

from .native_write import write_object
from .samples import random_object
from .script import parse
from .session import Session
from .sessions import FRAMES, INQUIRIES, Writer, budget_words

VARIABLES = ["@startframe", "@endframe", "@deltaframe", "@nextframe", "@frame"]
WORDS = ["play;", "step;", "step;", "step; step;", "step; step; step; step;", "stop;", "forward;", "backward;",
         "loop on;", "loop on;", "loop off;", "palindrome on;", "palindrome on;", "palindrome off;"]


def sequencer_session(rng):
    """Words, files and text of a session that sets frames, plays and steps."""
    numbers = ["0", "1", "2", "3", "5", "7", "-2", "-5", "9"]
    edges = ["2147483647", "-2147483648", "2147483646", "-2147483647"]
    lines = ["@endframe = %s;" % rng.choice(numbers), "sequence Echo(%s);" % ", ".join(VARIABLES)]
    for _ in range(rng.randint(3, 25)):
        form = rng.random()
        if form < 0.6:
            lines.append(rng.choice(WORDS))
        elif form < 0.9:
            name = rng.choice(VARIABLES)
            number = rng.choice(numbers)
            if rng.random() < 0.1:
                number = rng.choice(edges)
            elif rng.random() < 0.15:
                number = rng.choice(VARIABLES)
            lines.append("%s = %s;" % (name, number))
        elif form < 0.95:
            lines.append("Echo(%s);" % ", ".join(VARIABLES))
        else:
            lines.append(rng.choice(["sequence Foo();", "sequence Echo(@frame, @nextframe);", "sequence m(2);",
                                     "macro m(a) { Echo(a, @frame); SetGlobal(@frame, \"n\"); }",
                                     "Echo(GetGlobal(0, \"n\"));"]))
    return ["s.net"] + rng.choice([[], ["--links"], ["--trace"]]), {}, "\n".join(lines).encode()


class Objects(Writer):
    """Writes statements that do one thing each to the objects of the files."""

    def deep(self, text):
        """An object or a part of it."""
        form = self.rng.random()
        if form < 0.75:
            return text
        if form < 0.9:
            return "Select(%s, %s)" % (text, self.pick("0", "1", '"a"', '"b"'))
        return "Extract(%s%s)" % (text, self.pick("", "", ', "positions"'))

    def formula_over(self, names):
        """A Compute over the names."""
        return 'Compute("%s", %s)' % (self.formula(len(names), self.pick(1, 1, 2)), ", ".join(names))

    def one(self, names):
        """An expression over the names."""
        a, b = self.deep(self.rng.choice(names)), self.deep(self.rng.choice(names))
        component = self.pick('"data"', '"positions"', '"connections"', '"a"', '"b"', '"saved data"', '"extra"')
        text = [
            lambda: self.formula_over([a, b]), lambda: self.formula_over([a]),
            lambda: self.formula_over([a, self.pick("2", "{1 2 3}", "[1 2]", b)]),
            lambda: "Extract(%s)" % a, lambda: "Extract(%s, %s)" % (a, component),
            lambda: "Select(%s, %s)" % (a, self.pick("0", "1", "2", '"a"', '"data"', "-1")),
            lambda: "Slab(%s, %s, %s%s)" % (a, self.pick("0", "1", "2", '"x"', '"y"', '"z"'),
                                           self.pick("NULL", "0", "1", "2", "3"),
                                           self.pick("", "", ", 1", ", 0", ", 2", ", NULL")),
            lambda: "Slab(%s, 0, NULL)" % a,
            lambda: "Replace(%s, %s%s)" % (self.pick(a, a, "{1 2 3}", "NULL"), b,
                                          self.pick("", ", NULL, " + component, ", " + component,
                                                    ", %s, %s" % (component, component))),
            lambda: "Mark(%s, %s)" % (a, component), lambda: "Unmark(Mark(%s, %s), %s)" % (a, component, component),
            lambda: "Unmark(%s, %s)" % (a, component), lambda: "Statistics(%s)" % a,
            lambda: "Histogram(%s, %s%s)" % (a, self.pick("1", "2", "3", "7", "NULL"),
                                            self.pick("", "", ", 0", ", NULL, 5", ", 1, 4", ", 5, 4")),
            lambda: 'Inquire(%s, "%s")' % (a, self.rng.choice(INQUIRIES)), lambda: "Collect(%s, %s)" % (a, b),
            lambda: 'CollectNamed(%s, "a", %s, %s)' % (a, b, self.pick('"b"', "NULL", '"data"')),
            lambda: "CollectSeries(%s, 1, %s, %s)" % (a, b, self.pick("2", "1", "-3")),
        ]
        return self.rng.choice(text)()


class Steered:
    """An evaluator beside the writer, so that most statements that are written do something."""

    def __init__(self, files, lines):
        self.session = Session(files.get, 1 << 26, False, False)
        self.works("\n".join(lines))

    def works(self, text):
        """Whether the statements print no error."""
        self.session.out, self.session.failed = [], False
        for statement in parse(text.encode()):
            self.session.statement(statement)
        return not self.session.failed


def objects_session(rng):
    """Words, files and text of a session over two random objects."""
    writer = Objects(rng)
    files, lines, names = {}, [], []
    for i, name in enumerate(("f", "g")):
        files[b"%d.dx" % i] = write_object(random_object(rng, rng.choice([1, 2, 3])))
        lines.append('%s = Import("%d.dx");' % (name, i))
        names.append(name)
    steered = Steered(files, lines)
    for k in range(rng.randint(4, 14)):
        name = "v%d" % k
        targets = name
        value = writer.one(names)
        for _ in range(4):
            works = steered.works("%s = %s; Print(%s);" % (name, value, name))
            if works or rng.random() < 0.1:
                break
            value = writer.one(names)
        if value.startswith("Histogram") and rng.random() < 0.3:
            targets = name + ", w"
        if value.startswith("Statistics") and rng.random() < 0.5:
            targets = name + ", w, x, y, z"
        lines.append("%s = %s;" % (targets, value))
        lines.append('Print(%s, "%s");' % (name, rng.choice(["rd", "rd", "d", "r", "o"])))
        if rng.random() < 0.4:
            lines.append('Export(%s, "o%d");' % (name, k % 3))
            if rng.random() < 0.5:
                lines.append('Print(Import("o%d"), "rd");' % (k % 3))
        if works and rng.random() < 0.7:
            names.append(name)
            if "w" in targets:
                names.append("w")
    if rng.random() < 0.3:
        lines.append("Echo(%s);" % ", ".join([writer.deep(n) for n in names[:5]] + [rng.choice(FRAMES)]))
    return budget_words(rng), files, "\n".join(lines).encode()


def dense_session(rng):
    """One of the two."""
    return sequencer_session(rng) if rng.random() < 0.3 else objects_session(rng)
