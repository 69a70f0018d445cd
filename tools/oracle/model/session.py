"""A whole session: the words, the loading, the fold over the statements, and all lines that are printed."""

import re

from .base import MAX_LEVEL_OF_INCLUDES, MAX_LOADED, Refuse, quoted
from .expand import Dictionary, Expansion, StaticFault, Walk, has_call
from .machine import Halted, Machine, Refused
from .meaning import Library, Meaning, link_key
from .modules import answer
from .native_write import write_object
from .printing import echo_text, export_pair, print_text, set_pair
from .script import ScriptError, parse
from .sequencer import Sequencer

USAGE = b"usage: dxi [--memory BYTES] [--trace] [--links] (SESSION | --workload N)\n"
DEFAULT_BUDGET = 67108864


class Loading(Exception):
    """Loading is refused; `line` is the line without `error `."""

    def __init__(self, line):
        Exception.__init__(self, line)
        self.line = line


def load(files, name):
    """The statements of a session, each include replaced by those of its file."""
    loaded = [0]

    def one(name, level):
        if level > MAX_LEVEL_OF_INCLUDES:
            raise Loading(name + b": Nested")
        text = files(name)
        if text is None:
            raise Loading(name + b": Missing")
        loaded[0] += len(text)
        if loaded[0] > MAX_LOADED:
            raise Loading(name + b": TooLong")
        try:
            statements = parse(text)
        except ScriptError as error:
            raise Loading(b"%s:%d:%d: %s" % ((name,) + error.place(text) + (error.kind.encode(),))) from None
        out = []
        for statement in statements:
            if statement[0] == "include":
                out += one(statement[1], level + 1)
            else:
                out.append(statement)
        return out

    return one(name, 1)


def digits(word, most, low, high):
    """The value of one to `most` decimal digits in a range, or None."""
    if not re.match(rb"[0-9]{1,%d}\Z" % most, word):
        return None
    return int(word) if low <= int(word) <= high else None


def read_words(words):
    """The command line as a dictionary, or None where the words are no line."""
    line = {"memory": DEFAULT_BUDGET, "trace": False, "links": False, "session": None, "workload": None}
    seen = set()
    i = 0
    only_sessions = False
    while i < len(words):
        word = words[i]
        i += 1
        value = None
        if only_sessions or not word.startswith(b"-") or word == b"-":
            key, value = "session", word
        elif word == b"--":
            only_sessions = True
            continue
        elif word in (b"--trace", b"--links"):
            key, value = word[2:].decode(), True
        else:
            key, equal, rest = word.partition(b"=")
            if key not in (b"--memory", b"--workload"):
                return None
            if not equal:
                if i == len(words):
                    return None
                rest = words[i]
                i += 1
            key = key[2:].decode()
            value = digits(rest, 13, 0, 1 << 40) if key == "memory" else digits(rest, 6, 1, 100000)
            if value is None:
                return None
        if key in seen:
            return None
        seen.add(key)
        line[key] = value
    return line if (line["session"] is None) != (line["workload"] is None) else None


def workload_text(n):
    """The text of the workload."""
    lines = [b'macro cell(a, b) -> (r) { r = Compute("($0 * 31 + $1) % 1000", a, b); }', b"p = 1;"]
    lines += [b'SetGlobal(cell(GetGlobal(0, "s"), cell(p, %d)), "s");' % (k * 37 % 1000) for k in range(1, n + 1)]
    return b"\n".join(lines + [b'Print(GetGlobal(0, "s"), "d");']) + b"\n"


class Mismatch(Exception):
    """The meaning and the machine disagree: a bug of this evaluator."""


class Session:
    """The fold over the statements. `out` are the printed pieces, `exports` the pairs put."""

    def __init__(self, files, budget, trace, links):
        self.trace, self.show_links = trace, links
        self.dictionary, self.sequencer, self.sequence = Dictionary(), Sequencer(), None
        self.made = {}
        self.library = Library(answer, files)
        self.machine = Machine(budget, self.library, self.made)
        self.written = {}
        self.out, self.exports = [], []
        self.failed = False

    def error(self, where, what):
        """Prints an error line."""
        self.failed = True
        self.out.append(b"error %s: %s\n" % (where, what))

    def statement(self, statement):
        """One loaded statement."""
        kind = statement[0]
        if kind == "macro":
            self.dictionary.define(statement[1])
        elif kind == "assign":
            if not has_call(statement[2]) or self.execute(statement):
                self.dictionary.add(statement[1], statement[2])
        elif kind == "call":
            self.execute(statement)
        elif kind == "sequence":
            self.sequence = statement
        elif kind == "frame":
            number = statement[2]
            if isinstance(number, bytes):
                number = self.sequencer.frames()[number]
            if not self.sequencer.set(statement[1], number):
                self.error(b"@deltaframe", b"FrameRange")
        elif statement[1] == b"play":
            steps = self.sequencer.begin_play()
            if steps is None:
                self.error(b"play", b"PlayTooLong")
            for _ in range(steps or 0):
                self.step()
        elif statement[1] == b"step":
            self.step()
        else:
            self.sequencer.word(statement[1])

    def step(self):
        """One step of the sequencer."""
        if self.sequencer.step() and self.sequence is not None:
            self.execute(self.sequence)

    def execute(self, statement):
        """One execution; False where a static fault stopped it."""
        place = len(self.dictionary.definitions)
        self.machine.events = []
        try:
            Walk(self.dictionary).statement(statement, place)
        except StaticFault as fault:
            self.error(fault.site, fault.name)
            self.lines()
            return False
        effects = Expansion(self.dictionary, self.sequencer.frames()).statement(statement, place)
        error = self.perform(effects)
        if error is not None:
            self.error(*error)
        self.lines()
        return True

    def perform(self, effects):
        """Performs the effects, then the puts, the links and the emptying; the error or None."""
        machine = self.machine
        machine.begin(self.written)
        meaning = Meaning({key: held for key, held in machine.links.items()}, self.written, self.library, self.made)
        puts, sets, error = [], [], None
        for node in effects:
            error = self.effect(node, meaning, puts, sets)
            if error is not None:
                break
        self.exports += puts
        if puts:
            self.written = dict(self.written)
            self.written.update(puts)
        if error is None:
            for key, value, term in sets:
                if value is None:
                    machine.links.pop(key, None)
                else:
                    machine.links[key] = (value, term)
        machine.end()
        return error

    def effect(self, node, meaning, puts, sets):
        """One effect by the meaning and by the machine, which have to agree; its error or None."""
        whole = meaning.effect(node)
        terms, code = None, None
        try:
            terms = self.machine.effect(node)
        except Refused as refused:
            code = refused.code
        except Halted:
            code = b"BadArgument"
        decided = isinstance(whole, tuple)
        if decided and whole[0] != "O":
            if whole[2] != code:
                raise Mismatch(node.site)
            return whole[1], whole[2]
        if code is not None or decided != (not isinstance(terms, list)):
            raise Mismatch(node.site)
        if decided:
            return None
        if [id(v) for v in whole] != [id(self.machine.value(t)) for t in terms]:
            raise Mismatch(node.site)
        try:
            self.do(node, whole, terms, puts, sets)
        except Refuse as refusal:
            return node.site, refusal.code
        return None

    def do(self, node, values, terms, puts, sets):
        """Performs one effect with its values."""
        if node.name == b"Print":
            self.out.append(print_text(values))
        elif node.name == b"Echo":
            self.out.append(echo_text(values))
        elif node.name == b"Export":
            name, obj = export_pair(values)
            puts.append((name, write_object(obj)))
        else:
            sets.append((link_key(node, set_pair(values)), values[0], terms[0]))

    def lines(self):
        """The lines of trace and links after an execution."""
        if self.trace:
            self.out += [b"trace " + event + b"\n" for event in self.machine.events]
        if self.show_links:
            links = self.machine.links
            self.out.append(b"links %d\n" % len(links))
            for key in sorted(links):
                where = b"global " if key[0] == 0 else b"local " + (key[1] or b"-") + b" "
                self.out.append(b"link " + where + quoted(key[2]) + b"\n" + write_object(links[key][0]))


def run(words, files):
    """The whole run: printed bytes, exports in order, status. `files` gives the bytes of a name, or None."""
    line = read_words(words)
    if line is None:
        return USAGE, [], 3
    session = Session(files, line["memory"], line["trace"], line["links"])
    try:
        if line["workload"] is not None:
            statements = parse(workload_text(line["workload"]))
        else:
            statements = load(files, line["session"])
    except Loading as refused:
        return b"error " + refused.line + b"\n", [], 2
    for statement in statements:
        session.statement(statement)
    return b"".join(session.out), session.exports, 1 if session.failed else 0

