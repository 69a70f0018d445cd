"""The meaning of an execution, evaluated afresh: outcomes of calls, without terms, runs or cache.

An outcome is ("V", value), ("E", site, code), ("O",) or ("H", site, code); a value is None or an Object.
"""

from .base import INT, Refuse
from .functions import MODULES
from .objects import PLAIN, Array, Object

OFF = ("O",)
NONE = ("V", None)


def object_of(constant, made):
    """The value of a constant; `made` keeps those of this session."""
    value = made.get(constant)
    if value is None and constant[0] != "N":
        value = made[constant] = build(constant)
    return value


def build(constant):
    """The object of a constant that isn't NULL."""
    kind = constant[0]
    if kind == "I":
        return Object("a", Array(INT, (), PLAIN, 1, [constant[1]]))
    if kind == "T":
        return Object("t", text=constant[1])
    if kind == "V":
        return Object("a", Array(INT, (len(constant[1]),), PLAIN, 1, list(constant[1])))
    if kind == "L":
        return Object("a", Array(INT, (), PLAIN, len(constant[1]), list(constant[1])))
    if kind == "W":
        width, numbers = constant[1], list(constant[2])
        return Object("a", Array(INT, (width,), PLAIN, len(numbers) // width, numbers))
    return Object("g", parts=[(None, 0, Object("t", text=t)) for t in constant[1]])


class Library:
    """The modules with their answers kept by inputs, and the input files of the session."""

    def __init__(self, answer, files):
        self.answer_of, self.files, self.kept = answer, files, {}

    def answer(self, module, inputs, content):
        """(None, results) or (code, None)."""
        key = (module, tuple(map(id, inputs)), content)
        kept = self.kept.get(key)
        if kept is None:
            try:
                found = (None, self.answer_of(module, inputs, content))
            except Refuse as refusal:
                found = (refusal.code, None)
            kept = self.kept[key] = (found, inputs)
        return kept[0]

    def content(self, module, inputs, written):
        """The bytes of the file of an Import, or None."""
        if module != b"Import" or inputs[0] is None or inputs[0].kind != "t":
            return None
        name = inputs[0].text
        content = written.get(name)
        return content if content is not None else self.files(name)


class Meaning:
    """The outcomes of one execution, given the links and the written files before it."""

    def __init__(self, links, written, library, made):
        self.links, self.written, self.library, self.made = links, written, library, made

    def outcome(self, ref):
        """The outcome of an input."""
        node, j = ref
        if node is None:
            return ("V", object_of(j, self.made))
        if node.name in MODULES:
            whole = self.module(node)
            if isinstance(whole, tuple):
                return whole
            return ("V", whole[j]) if j < len(whole) else NONE
        found = node.outcome.get(j)
        if found is None:
            found = node.outcome[j] = self.control(node, j)
        return found

    def module(self, node):
        """The outcome of a module call: a tuple as above, or the list of its results."""
        found = node.outcome.get("whole")
        if found is None:
            found = node.outcome["whole"] = self.call(node)
        return found

    def call(self, node):
        """Finds the outcome of a module call."""
        outcomes = []
        for i, ref in enumerate(node.inputs):
            own = self.outcome(ref)
            if i == 0 and node.name == b"Import" and own[0] == "E":
                own = ("H",) + own[1:]
            if own[0] in "OH":
                return own
            outcomes.append(own)
        for own in outcomes:
            if own[0] == "E":
                return own
        values = [own[1] for own in outcomes]
        content = self.library.content(node.name, values, self.written)
        code, results = self.library.answer(node.name, values, content)
        return ("E", node.site, code) if code is not None else list(results)

    def control(self, node, j):
        """The outcome of result j of a call that is no module."""
        name = node.name
        if name in (b"SetLocal", b"SetGlobal"):
            return self.outcome(node.inputs[1])
        own = self.outcome(node.inputs[1 if name in (b"GetLocal", b"GetGlobal") else 0])
        if own[0] == "O":
            return OFF
        if own[0] in "EH":
            return ("H",) + own[1:]
        if name == b"Switch":
            return self.switch(node, own[1])
        if name == b"Route":
            return self.route(node, own[1], j)
        return self.get(node, own[1], j)

    def switch(self, node, selector):
        """Switch by the value of its selector."""
        if selector is None:
            return NONE
        number = selector.number()
        if number is None:
            return ("H", node.site, b"BadArgument")
        return self.outcome(node.inputs[number]) if 1 <= number < len(node.inputs) else NONE

    def route(self, node, selector, j):
        """Result j of Route by the value of its selector."""
        if selector is None:
            return OFF
        number = selector.number()
        if number is None:
            return ("H", node.site, b"BadArgument")
        return self.outcome(node.inputs[1]) if number == j + 1 else OFF

    def get(self, node, selector, j):
        """Result j of a Get by the value of its link argument."""
        name = link_name(node, selector)
        if name is None:
            return ("H", node.site, b"BadArgument")
        if j == 1:
            return ("V", object_of(("T", name), self.made))
        held = self.links.get(link_key(node, name))
        return ("V", held[0]) if held is not None else self.outcome(node.inputs[0])

    def effect(self, node):
        """What decides an effect, or the list of its values."""
        outcomes = []
        for ref in node.inputs:
            own = self.outcome(ref)
            if own[0] in "OH":
                return own
            outcomes.append(own)
        for own in outcomes:
            if own[0] == "E":
                return own
        return [own[1] for own in outcomes]


def link_name(node, selector):
    """The name of the link of a Get: the selector's text, or the automatic name for NULL; else None."""
    if selector is None:
        return b"#" + node.site
    return selector.text if selector.kind == "t" else None


def link_key(node, name):
    """The key of a link, ordered as the links are: global ones, then by path and name."""
    return (0, b"", name) if node.name in (b"GetGlobal", b"SetGlobal") else (1, node.path, name)
