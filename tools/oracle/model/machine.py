"""The cache machine: terms, control, getting, storing and emptying under a budget, and its events."""

from collections import OrderedDict

from .base import MAX_TERMS
from .functions import MODULES
from .meaning import OFF, link_key, link_name, object_of



class Refused(Exception):
    """The getting of a term is refused with a code."""

    def __init__(self, code):
        Exception.__init__(self, code)
        self.code = code


class Halted(Exception):
    """A selector's value doesn't fit its call."""

    def __init__(self, site):
        Exception.__init__(self, site)
        self.site = site


class Machine:
    """The state of the machine: entries (oldest first), terms, held values and links."""

    def __init__(self, budget, library, made):
        self.budget, self.library, self.made = budget, library, made
        self.entries, self.used = OrderedDict(), 0
        self.tags, self.terms = {}, []
        self.held = []
        self.links = {}
        self.events = []

    # Terms.

    def intern(self, term):
        """The tag of a term."""
        tag = self.tags.get(term)
        if tag is None:
            tag = self.tags[term] = len(self.terms)
            self.terms.append(term)
        return tag

    def constant(self, constant):
        """The value term of a constant."""
        return (self.intern(("c", constant)), 0)

    # One execution.

    def begin(self, written):
        """Begins an execution."""
        self.written = written
        self.events = []
        self.known, self.named = {}, {}
        self.link_values = {term: value for value, term in self.links.values()}

    def end(self):
        """Empties the machine where too many terms were formed."""
        if len(self.terms) <= MAX_TERMS:
            return
        self.entries.clear()
        self.used = 0
        self.tags, self.terms = {}, []
        self.events.append(b"clear")
        self.held = [self.links[key][0] for key in sorted(self.links)]
        for k, key in enumerate(sorted(self.links)):
            self.links[key] = (self.held[k], (self.intern(("h", k)), 0))

    # Control.

    def look(self, ref):
        """The value term of an input, or OFF; selectors are got as they are met."""
        node, j = ref
        if node is None:
            return self.constant(j)
        module = node.name in MODULES
        key = 0 if module else j
        found = node.looked.get(key)
        if found is None:
            found = node.looked[key] = self.look_at(node, j)
        return (found[0], j) if module and found is not OFF else found

    def look_at(self, node, j):
        """Looks at a call for the first time."""
        if node.name in MODULES:
            return self.look_at_module(node)
        if node.name in (b"SetLocal", b"SetGlobal"):
            return self.look(node.inputs[1])
        get = node.name in (b"GetLocal", b"GetGlobal")
        selector = self.look(node.inputs[1 if get else 0])
        if selector is OFF:
            return OFF
        self.get(selector)
        value = self.value(selector)
        if get:
            return self.look_at_get(node, value, j)
        return self.look_at_choice(node, value, j)

    def look_at_choice(self, node, value, j):
        """Switch and Route by the value of their selector."""
        switch = node.name == b"Switch"
        if value is None:
            return self.constant(("N",)) if switch else OFF
        number = value.number()
        if number is None:
            raise Halted(node.site)
        if switch:
            return self.look(node.inputs[number]) if 1 <= number < len(node.inputs) else self.constant(("N",))
        return self.look(node.inputs[1]) if number == j + 1 else OFF

    def look_at_get(self, node, value, j):
        """GetLocal and GetGlobal by the value of their link argument."""
        name = link_name(node, value)
        if name is None:
            raise Halted(node.site)
        if j == 1:
            return self.constant(("T", name))
        held = self.links.get(link_key(node, name))
        return held[1] if held is not None else self.look(node.inputs[0])

    def look_at_module(self, node):
        """Forms the term of a module call."""
        args = []
        for i, ref in enumerate(node.inputs):
            own = self.look(ref)
            if own is OFF:
                return OFF
            if i == 0 and node.name == b"Import":
                self.get(own)
            args.append(own)
        if node.name == b"Import":
            name = self.value(args[0])
            content = self.written.get(name.text) if name is not None and name.kind == "t" else None
            if content is not None:
                args.append((self.intern(("f", content)), 0))
        tag = self.intern(("m", node.name, tuple(args)))
        if tag not in self.named:
            self.named[tag] = (node.site, node.cache)
        return (tag, 0)

    # Getting.

    def value(self, term):
        """The value of a term that was got."""
        own = self.terms[term[0]]
        if own[0] == "c":
            return object_of(own[1], self.made)
        if own[0] == "h":
            return self.held[own[1]]
        if term in self.link_values:
            return self.link_values[term]
        results = self.known[term[0]]
        return results[term[1]] if term[1] < len(results) else None

    def get(self, term):
        """Gets a value term."""
        if self.terms[term[0]][0] != "m" or term in self.link_values or term[0] in self.known:
            return
        tag = term[0]
        entry = self.entries.get(tag)
        site, attribute = self.named[tag]
        if entry is not None:
            self.entries.move_to_end(tag)
            self.known[tag] = entry[3]
            self.events.append(b"hit " + site)
            return
        _kind, module, args = self.terms[tag]
        inputs, content = self.inputs(args)
        self.events.append(b"run " + site)
        if content is None and module == b"Import" and inputs[0] is not None and inputs[0].kind == "t":
            content = self.library.files(inputs[0].text)
        code, results = self.library.answer(module, inputs, content)
        if code is not None:
            raise Refused(code)
        self.known[tag] = results
        self.store(tag, site, attribute, results)

    def inputs(self, args):
        """Gets the arguments of a call: their values, and the bytes of its `File` or None."""
        values = []
        for arg in args:
            own = self.terms[arg[0]]
            if own[0] == "f":
                return values, own[1]
            self.get(arg)
            values.append(self.value(arg))
        return values, None

    # Storing.

    def drop(self, tag):
        """Drops an entry."""
        entry = self.entries.pop(tag)
        self.used -= entry[2]
        self.events.append(b"drop " + entry[0])

    def store(self, tag, site, attribute, results):
        """Stores the results of a run."""
        if attribute == 0:
            return
        if attribute == 2:
            for old in [t for t, entry in self.entries.items() if entry[0] == site]:
                self.drop(old)
        size = sum(64 if value is None else value.size for value in results)
        if size > self.budget:
            return
        while self.used + size > self.budget:
            self.drop(next(iter(self.entries)))
        self.entries[tag] = (site, attribute, size, results)
        self.used += size
        self.events.append(b"keep %s %d" % (site, size))

    def effect(self, node):
        """Looks at an effect and gets its arguments. Gives OFF, or the list of value terms."""
        terms = []
        for ref in node.inputs:
            own = self.look(ref)
            if own is OFF:
                return OFF
            terms.append(own)
        for term in terms:
            self.get(term)
        return terms

