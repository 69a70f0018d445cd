"""The texts of Print and Echo, and what Export and the Sets need."""

from .base import Refuse, decimal, quoted

FEW, EACH_END = 50, 25


def header(obj):
    """The header of a value."""
    if obj is None:
        return b"NULL"
    if obj.kind == "a":
        return b"array " + obj.array.header()
    if obj.kind == "t":
        return b"text " + quoted(obj.text)
    words = {"f": b"field %d components", "g": b"group %d members", "s": b"series %d members"}[obj.kind]
    return words % len(obj.parts)


def item_lines(array, indent, everything):
    """The lines of an array's items."""
    def one(i):
        return indent + b" ".join([b"%d" % v for v in array.item(i)]) + b"\n"

    if everything or array.items <= FEW:
        return [one(i) for i in range(array.items)]
    return ([one(i) for i in range(EACH_END)] + [indent + b"...\n"] +
            [one(i) for i in range(array.items - EACH_END, array.items)])


def part_title(kind, part):
    """The line of a part without its indent."""
    name, position, _obj = part
    if kind == "f":
        return b"component " + quoted(name)
    if kind == "s":
        return b"member at " + decimal(position)
    return b"member " + quoted(name) if name is not None else b"member"


def lines_of(obj, indent, letters, out):
    """Appends the lines of a value at an indent."""
    out.append(indent + header(obj) + b"\n")
    if obj is None:
        return
    if obj.kind == "a" and (b"D" in letters or b"d" in letters):
        out.extend(item_lines(obj.array, indent, b"D" in letters))
    if b"r" in letters:
        for part in obj.parts:
            out.append(indent + b"  " + part_title(obj.kind, part) + b":\n")
            lines_of(part[2], indent + b"    ", letters, out)
        for name, value in obj.attrs:
            out.append(indent + b"  attribute " + quoted(name) + b":\n")
            lines_of(value, indent + b"    ", letters, out)


def text_or_null(value):
    """Whether a value is a text or NULL."""
    return value is None or value.kind == "t"


def print_text(values):
    """What Print prints."""
    obj, options, component = values
    if not text_or_null(options):
        raise Refuse(b"BadArgument")
    letters = options.text if options is not None else b"o"
    if letters.strip(b"ordD"):
        raise Refuse(b"Unsupported")
    if not text_or_null(component):
        raise Refuse(b"BadArgument")
    if component is not None and obj is not None:
        obj = obj.part(component.text) if obj.kind in "fg" else None
        if obj is None:
            raise Refuse(b"NoComponent")
    out = []
    lines_of(obj, b"", letters, out)
    return b"".join(out)


def echo_text(values):
    """What Echo prints."""
    words = []
    for value in values:
        if value is not None and value.kind == "t":
            words.append(value.text)
        elif value is not None and value.number() is not None:
            words.append(decimal(value.number()))
        else:
            words.append(header(value))
    return b" ".join(words) + b"\n"


def export_pair(values):
    """Name and object of an Export."""
    obj, name, form = values
    if obj is None or name is None or name.kind != "t" or not name.text or not text_or_null(form):
        raise Refuse(b"BadArgument")
    if form is not None and form.text != b"dx":
        raise Refuse(b"Unsupported")
    return name.text, obj


def set_pair(values):
    """The link's name of a Set."""
    link = values[1]
    if link is None or link.kind != "t":
        raise Refuse(b"BadArgument")
    return link.text
