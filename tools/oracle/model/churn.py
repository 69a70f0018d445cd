"""Random sessions of small numbers that are computed, kept, dropped and fed back again and again."""

LINKS = ['"n"', '"s"', '"t"']


class CacheWriter:
    """Writes a session whose definitions share terms, so that runs, hits, keeps and drops are many."""

    def __init__(self, rng):
        self.rng = rng
        self.files = {"k.dx": b"object 1 class array type int rank 0 items 1 data follows 4 end"}
        self.names = ["v%d" % i for i in range(rng.randint(2, 7))]
        self.cells = []

    def pick(self, *choices):
        """One of the choices."""
        return self.rng.choice(choices)

    def attributes(self):
        """The cache attribute of a call."""
        return "" if self.rng.random() < 0.75 else self.pick("[cache: 0]", "[cache: 2]", "[cache: 2]", "[cache: 1]")

    def small(self):
        """A small number, a name or a frame."""
        form = self.rng.random()
        if form < 0.55:
            return self.rng.choice(self.names)
        return "@frame" if form < 0.65 else str(self.rng.randint(0, 3))

    def term(self, depth):
        """An expression that is mostly a number."""
        rng = self.rng
        form = rng.random()
        t = lambda: self.term(depth - 1) if depth > 0 else self.small()  # noqa: E731
        if form < 0.12:
            return self.small()
        if form < 0.5:
            text = self.pick("$0 + 1", "$0 * 2", "$0 - $1", "$0 + $1", "$0 * 3 % 7", "$0 / $1", "$1", "7", "1 / 0",
                             "$0 > 2", "[$0, $1].0", "$0 ? $1 : 5") if rng.random() < 0.97 else "$0 +"
            return 'Compute("%s", %s, %s)%s' % (text, t(), t(), self.attributes())
        if form < 0.55:
            return "Statistics(%s)%s" % (self.pick(t(), "{1 2 %s}" % rng.randint(0, 3)), self.attributes())
        if form < 0.62:
            return "Select(Collect(%s, %s)%s, %s)%s" % (t(), t(), self.attributes(), self.pick("0", "1", "1", t()),
                                                       self.attributes())
        if form < 0.7:
            return "Switch(%s, %s, %s)" % (self.pick("1", "2", t()), t(), t())
        if form < 0.74:
            return "Route(%s, %s)" % (self.pick("1", "1", "2", t()), t())
        if form < 0.86:
            return "%s(%s, %s)" % (self.pick("GetGlobal", "GetGlobal", "GetLocal"), t(),
                                   self.pick(*LINKS) if rng.random() < 0.85 else "NULL")
        if form < 0.9:
            name = self.pick('"k.dx"', '"o"', 'Select({"k.dx" "o"}, %s)%s' % (t(), self.attributes()),
                             'Switch(%s, "k.dx", "o")' % t())
            return "Import(%s)%s" % (name, self.attributes())
        if form < 0.94:
            return 'Inquire(%s, "%s")%s' % (t(), self.pick("items", "is null", "rank", "is array"), self.attributes())
        if self.cells:
            return "%s(%s)" % (self.rng.choice(self.cells), ", ".join(t() for _ in range(rng.randint(0, 2))))
        return "SetGlobal(%s, %s)" % (t(), self.pick(*LINKS))

    def effect(self):
        """An effect call."""
        form = self.rng.random()
        if form < 0.5:
            return 'Print(%s, "d")' % self.term(self.pick(0, 0, 1, 2))
        if form < 0.62:
            return "Echo(%s, %s)" % (self.term(1), self.term(0))
        if form < 0.72:
            return 'Export(%s, "%s")' % (self.term(1), self.pick("o", "o", "p"))
        return "%s(%s, %s)" % (self.pick("SetGlobal", "SetGlobal", "SetLocal"), self.term(1), self.pick(*LINKS))

    def macro(self, name):
        """A macro of numbers; it may call those before it."""
        outer, self.names = self.names, ["a", "b", self.rng.choice(self.names)]
        lines = []
        for _ in range(self.rng.randint(1, 4)):
            if self.rng.random() < 0.6:
                target = self.pick("r", "a", "t")
                lines.append("%s = %s;" % (target, self.term(2)))
                self.names = self.names + [target]
            else:
                lines.append(self.effect() + ";")
        self.names = outer
        if name not in self.cells:
            self.cells = self.cells + [name]
        return "macro %s(a, b = %d) -> (r) { %s }" % (name, self.rng.randint(0, 3), " ".join(lines))

    def definition(self):
        """A definition."""
        rng = self.rng
        if rng.random() < 0.1:
            many = ", ".join(rng.choice(self.names) for _ in range(rng.randint(2, 3)))
            return "%s = %s;" % (many, self.pick("Route(%s, %s)" % (self.small(), self.term(1)),
                                                 "Statistics({%s 4 7})" % rng.randint(0, 2)) + self.attributes())
        return "%s = %s;" % (rng.choice(self.names), self.term(self.pick(1, 2, 2, 3)))

    def session(self):
        """The statements of a session."""
        rng = self.rng
        out = ["@endframe = %d;" % rng.randint(1, 5)] if rng.random() < 0.5 else []
        out += ["%s = %d;" % (name, rng.randint(0, 4)) for name in self.names if rng.random() < 0.9]
        for i in range(rng.choice([0, 1, 1, 2])):
            out.append(self.macro("cell%d" % i))
        out += [self.definition() for _ in range(rng.randint(1, len(self.names) + 1))]
        kept = len(out)
        for _ in range(rng.randint(4, 20)):
            form = rng.random()
            if form < 0.35 and len(out) > kept:
                out.append(rng.choice(out[kept:]))
            elif form < 0.5:
                out.append(self.definition())
            elif form < 0.85:
                out.append(self.effect() + ";")
            elif form < 0.92:
                call = "%s(%s)" % (rng.choice(self.cells), self.small()) if self.cells else self.effect()
                out.append(self.pick("sequence %s;" % call, call + ";"))
            else:
                out.append(self.pick("play;", "step;", "step;", "loop on;", "palindrome on;", "backward;", "forward;",
                                     "@frame = %d;" % rng.randint(0, 3), "@nextframe = @startframe;"))
        if rng.random() < 0.1 and self.cells:
            out.insert(rng.randint(kept, len(out)), self.macro(rng.choice(self.cells)))
        return out


def long_session(rng):
    """Words and text of a session of some ten thousand executions, which forms so many terms that the machine is emptied."""
    steps = rng.choice([12000, 23000, 34000, 40000])
    lines = ["a = GetGlobal(0, \"n\");",
             'b = Compute("($0 * 31 + $1) %% %d", a, %s)%s;' % (rng.choice([7, 1000, 1000000]), rng.choice(
                 ["@frame", "Compute(\"$0 * 2\", @frame)", "Compute(\"$0 %% 100\", @frame)[cache: %d]" %
                  rng.randint(0, 2)]), rng.choice(["", "", "[cache: 2]", "[cache: 0]"])),
             "SetGlobal(b, %s);" % rng.choice(['"n"', '"n"', 'Select({"n" "m"}, Compute("$0 % 2", @frame))'])]
    if rng.random() < 0.5:
        lines.append('SetGlobal(Switch(Compute("$0 % 5 + 1", @frame), b, a, NULL, {1 2}), "k");')
    if rng.random() < 0.5:
        lines.append('Print(Collect(GetGlobal(1, "k"), Compute("$0", a)), "rd");')
    if rng.random() < 0.3:
        lines.append('Export(Compute("$0 / 3", @frame), "o"); Echo(Import("o"));')
    if rng.random() < 0.4:
        lines.append('Echo(Compute("$0 % 3 == 0 ? 1 / 0 : 5", @frame));')
    if rng.random() < 0.4:
        lines.append('t, u = Route(Compute("$0 % 3", @frame), a); Print(Compute("$0 + 1", u), "d");')
    rest = lines[2:]
    rng.shuffle(rest)
    lines = lines[:2] + rest if rng.random() < 0.8 else rest + lines[:2]
    text = "@endframe = %d; macro main() { %s } sequence main(); play; Print(GetGlobal(9, \"n\"), \"d\"); main();" % (
        steps, " ".join(lines))
    words = ["s.net", "--trace"] + (["--memory", str(rng.choice([0, 68, 136, 700, 5000, 300000]))]
                                    if rng.random() < 0.8 else [])
    return words, text.encode()
