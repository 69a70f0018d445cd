"""The canonical native text of an object."""

from .base import INT, TYPE_NAMES, decimal, quoted
from .objects import CONSTANT, GRID, PLAIN, REGULAR, shape_words


def numbers(values):
    """Numbers separated by a space."""
    return b" ".join([b"%d" % v for v in values])


def array_lines(name, array):
    """The lines of an array's clause before its attributes."""
    lead = b"object " + decimal(name) + b" class "
    n = len(array.counts)
    if n:
        if array.cls != GRID:
            return [lead + b"gridconnections counts " + numbers(array.counts)]
        lines = [lead + b"gridpositions counts " + numbers(array.counts), b"origin " + numbers(array.origin)]
        return lines + [b"delta " + numbers(array.deltas[i * n:(i + 1) * n]) for i in range(n)]
    head = b"type %s %s items %d" % (TYPE_NAMES[array.elem], shape_words(array.shape), array.items)
    if array.cls == PLAIN:
        return ([lead + b"array " + head + b" data follows"] +
                [numbers(array.item(i)) for i in range(array.items)])
    if array.cls == CONSTANT:
        return [lead + b"constantarray " + head + b" data follows", numbers(array.origin)]
    assert array.cls == REGULAR
    return [lead + b"regulararray " + head, b"origin " + numbers(array.origin), b"delta " + numbers(array.deltas)]


def attribute_form(obj):
    """`string T` or `number V` where an attribute is written so, else None."""
    if obj.attrs:
        return None
    if obj.kind == "t":
        return b"string " + quoted(obj.text)
    if obj.kind == "a":
        a = obj.array
        if a.cls == PLAIN and a.elem == INT and not a.shape and a.items == 1:
            return b"number " + decimal(a.values[0])
    return None


def part_line(kind, place, part, name):
    """The line of a part that is the object of that name."""
    own, position, _obj = part
    if kind == "f":
        return b"component " + quoted(own) + b" value " + decimal(name)
    if kind == "s":
        return b"member %d position %d value %d" % (place, position, name)
    return b"member " + (quoted(own) if own is not None else decimal(place)) + b" value " + decimal(name)


def write_object(obj):
    """The whole text."""
    lines = []
    last = [0]

    def put(o):
        parts = [put(p[2]) for p in o.parts]
        forms = []
        for name, value in o.attrs:
            form = attribute_form(value)
            if form is None:
                form = b"value " + decimal(put(value))
            forms.append(b"attribute " + quoted(name) + b" " + form)
        last[0] += 1
        me = last[0]
        if o.kind == "a":
            lines.extend(array_lines(me, o.array))
        elif o.kind == "t":
            lines.append(b"object " + decimal(me) + b" class string " + quoted(o.text))
        else:
            word = {"f": b"field", "g": b"compositefield" if o.composite else b"group", "s": b"series"}[o.kind]
            lines.append(b"object " + decimal(me) + b" class " + word)
            lines.extend(part_line(o.kind, i, p, name) for i, (p, name) in enumerate(zip(o.parts, parts)))
        lines.extend(forms)
        return me

    put(obj)
    lines.append(b"end")
    return b"\n".join(lines) + b"\n"
