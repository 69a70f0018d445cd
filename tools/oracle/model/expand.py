"""Dictionary, static faults, and the expansion of a statement into call nodes."""

from bisect import bisect_left

from .base import MAX_CALLS, MAX_NESTING
from .functions import EFFECTS, FUNCTIONS
from .script import Call

NULL = (None, ("N",))


class StaticFault(Exception):
    """A static fault of a statement at a site."""

    def __init__(self, site, name):
        Exception.__init__(self, site, name)
        self.site, self.name = site, name


class Node:
    """A call: its function, site, path, cache attribute and inputs; an input is (None, constant) or (node, result).
    `outcome` and `looked` are what the meaning and the machine found out about it in this execution."""

    __slots__ = ("name", "site", "path", "cache", "inputs", "outcome", "looked")

    def __init__(self, name, site, path, cache, inputs):
        self.name, self.site, self.path, self.cache, self.inputs = name, site, path, cache, inputs
        self.outcome, self.looked = {}, {}


class Dictionary:
    """Macros by name, and the top-level assignments in order."""

    def __init__(self):
        self.macros = {}
        self.definitions = []
        self.places = {}

    def define(self, macro):
        """Adds a macro, or puts it in the place of an earlier one."""
        self.macros[macro.name] = macro

    def add(self, targets, value):
        """Adds a definition."""
        for target in set(targets):
            self.places.setdefault(target, []).append(len(self.definitions))
        self.definitions.append((targets, value))

    def meant(self, name, place):
        """The number of the last definition of the name before that place, or None."""
        places = self.places.get(name)
        if places:
            i = bisect_left(places, place)
            if i:
                return places[i - 1]
        return None


def step_of(call):
    """The step of a call in a site."""
    return b"%s:%d" % (call.name, call.k)


class Walk:
    """The walk that looks for the first static fault."""

    def __init__(self, dictionary):
        self.dictionary, self.calls, self.walked = dictionary, 0, set()

    def statement(self, statement, place):
        """Walks an assignment, a call or a sequence call at a place of the session."""
        if statement[0] == "assign":
            self.expression(statement[2], None, (statement[1][0] + b"/", 0, place), len(statement[1]))
        else:
            self.call(statement[1], None, (b"", 0, place), 0)

    def expression(self, value, bound, where, targets):
        """Walks an expression. `bound` are the names that the body has, None at the top level."""
        if isinstance(value, Call):
            self.call(value, bound, where, targets)
        elif value[0] == "n":
            self.name(value[1], bound, where[2])

    def name(self, name, bound, place):
        """Follows a name that is read to its definition."""
        if bound is not None and name in bound:
            return
        i = self.dictionary.meant(name, place)
        if i is None or i in self.walked:
            return
        self.walked.add(i)
        targets, value = self.dictionary.definitions[i]
        self.expression(value, None, (targets[0] + b"/", 0, i), len(targets))

    def call(self, call, bound, where, targets):
        """Counts and checks a call, then its arguments, then the body of a macro."""
        prefix, depth, place = where
        site = prefix + step_of(call)
        self.calls += 1
        if self.calls > MAX_CALLS:
            raise StaticFault(site, b"Calls")
        macro = self.dictionary.macros.get(call.name)
        if macro is None and call.name not in FUNCTIONS:
            raise StaticFault(site, b"UnknownFunction")
        self.check(call, macro, targets, site)
        if macro is not None and depth >= MAX_NESTING:
            raise StaticFault(site, b"Nesting")
        for _name, value in call.args:
            self.expression(value, bound, where, 0)
        if macro is not None:
            self.body(macro, (site + b"/", depth + 1, place))

    @staticmethod
    def check(call, macro, targets, site):
        """Arguments and results of a call."""
        if macro is not None:
            names, more, results = [p[0] for p in macro.params], 0, len(macro.results)
        else:
            names, more, results = FUNCTIONS[call.name]
        if len(call.args) > len(names) + more:
            raise StaticFault(site, b"TooManyArguments")
        given = set()
        for i, (name, _value) in enumerate(call.args):
            if name is None:
                if i < len(names):
                    given.add(names[i])
                continue
            if name not in names or name in given:
                raise StaticFault(site, b"NoSuchParameter")
            given.add(name)
        if targets > results:
            raise StaticFault(site, b"TooManyResults")

    def body(self, macro, where):
        """Walks the body of a macro, then its result names."""
        bound = {p[0] for p in macro.params}
        for statement in macro.body:
            if statement[0] == "assign":
                self.expression(statement[2], bound, where, len(statement[1]))
                bound.update(statement[1])
            else:
                self.call(statement[1], bound, where, 0)
        for name in macro.results:
            self.name(name, bound, where[2])


class Expansion:
    """The effects of one statement, as call nodes."""

    def __init__(self, dictionary, frames):
        self.dictionary, self.frames = dictionary, frames
        self.effects = []
        self.read = {}

    def statement(self, statement, place):
        """Expands an assignment, a call or a sequence call at a place of the session."""
        if statement[0] == "assign":
            self.value(statement[2], None, (statement[1][0] + b"/", (), place), self.effects)
        else:
            self.call(statement[1], None, (b"", (), place), self.effects)
        return self.effects

    def value(self, value, names, where, effects):
        """The input that an expression means."""
        if isinstance(value, Call):
            results = self.call(value, names, where, effects)
            return results(0)
        if value[0] == "c":
            return (None, value[1])
        if value[0] == "f":
            return (None, ("I", self.frames[value[1]]))
        return self.name(value[1], names, where[2])

    def name(self, name, names, place):
        """What a name means."""
        if names is not None and name in names:
            return names[name]
        i = self.dictionary.meant(name, place)
        if i is None:
            return NULL
        if i not in self.read:
            self.read[i] = self.definition(i)
        targets, results = self.read[i]
        return results(max(j for j, target in enumerate(targets) if target == name))

    def definition(self, i):
        """The targets of a definition and its results by number; its effects are dropped."""
        targets, value = self.dictionary.definitions[i]
        where = (targets[0] + b"/", (), i)
        if isinstance(value, Call):
            return targets, self.call(value, None, where, [])
        one = self.value(value, None, where, [])
        return targets, lambda j: one

    def call(self, call, names, where, effects):
        """Expands a call and gives its results by number."""
        prefix, path, place = where
        step = step_of(call)
        args = [(name, self.value(value, names, where, effects)) for name, value in call.args]
        macro = self.dictionary.macros.get(call.name)
        if macro is not None:
            return self.body(macro, args, (prefix + step + b"/", path + (step,), place), effects)
        params, _more, results = FUNCTIONS[call.name]
        inputs = [NULL] * len(params)
        for i, (name, value) in enumerate(args):
            if name is not None:
                inputs[params.index(name)] = value
            elif i < len(params):
                inputs[i] = value
            else:
                inputs.append(value)
        node = Node(call.name, prefix + step, b"/".join(path), call.cache, inputs)
        if call.name in EFFECTS:
            effects.append(node)
        return lambda j: (node, j) if j < results else NULL

    def body(self, macro, args, where, effects):
        """Expands a macro's body and gives its results by number."""
        names = {name: (None, default) if default is not None else NULL for name, default in macro.params}
        for i, (name, value) in enumerate(args):
            names[name if name is not None else macro.params[i][0]] = value
        for statement in macro.body:
            if statement[0] == "assign":
                self.assign(statement, names, where, effects)
            else:
                self.call(statement[1], names, where, effects)
        results = [self.name(name, names, where[2]) for name in macro.results]
        return lambda j: results[j] if j < len(results) else NULL

    def assign(self, statement, names, where, effects):
        """An assignment in a macro's body."""
        targets, value = statement[1], statement[2]
        if isinstance(value, Call):
            results = self.call(value, names, where, effects)
            for j, target in enumerate(targets):
                names[target] = results(j)
        else:
            names[targets[0]] = self.value(value, names, where, effects)


def has_call(value):
    """Whether an expression of an assignment has a call in its text."""
    return isinstance(value, Call)

