"""Slab: slices of a grid."""

from .base import Refuse
from .fields import field_fault, grid_counts
from .objects import CELLS, GRID, PLAIN, Array, Object, indices_of, within

AXES = (b"x", b"y", b"z")


def need(condition):
    """BadArgument unless the condition holds."""
    if not condition:
        raise Refuse(b"BadArgument")


def axis_of(value, n):
    """The dimension as a number below n."""
    need(value is not None)
    if value.kind == "t":
        need(value.text in AXES[:n])
        return AXES.index(value.text)
    number = value.number()
    need(number is not None and 0 <= number < n)
    return number


def run_slab(inputs):
    """The answer of Slab."""
    field, dimension, position, thickness = inputs
    need(field is not None and field.kind == "f")
    if field_fault(field):
        raise Refuse(b"BadField")
    counts = grid_counts(field)
    if counts is None or any(name != b"connections" and part.attribute(b"ref") is not None
                             for name, _position, part in field.parts):
        raise Refuse(b"NotRegular")
    data = field.part(b"data")
    if (data is not None and data.attribute(b"dep") is None and
            data.array.items != field.part(b"positions").array.items):
        raise Refuse(b"BadField")
    d = axis_of(dimension, len(counts))
    q = None
    if position is not None:
        q = position.number()
        need(q is not None)
    t = 0
    if thickness is not None:
        t = thickness.number()
        need(t is not None and t >= 0)
    if q is not None:
        need(q >= 0 and q + t <= counts[d] - 1)
        return [within(slab(field, counts, d, q, t))]
    need(t <= counts[d] - 1)
    parts = [(None, i, within(slab(field, counts, d, i, t))) for i in range(counts[d] - t)]
    return [within(Object("s", parts=parts))]


def kept(array, counts, d, low, high):
    """The plain array of the items whose index in d is from low to high."""
    values = []
    items = 0
    for i in range(array.items):
        if d is None or low <= indices_of(i, counts)[d] <= high:
            values += array.item(i)
            items += 1
    return Array(array.elem, array.shape, PLAIN, items, values)


def slab(field, counts, d, q, t):
    """One slab of a grid."""
    n = len(counts)
    new_counts = counts[:d] + (t + 1,) + counts[d + 1:]
    new_long = tuple(c for c in new_counts if c != 1)
    cells = [c - 1 for c in counts if c != 1]
    if counts[d] == 1:
        cell_axis, low, high = None, 0, 0
    else:
        cell_axis = sum(1 for c in counts[:d] if c != 1)
        low, high = (q, q + t - 1) if t else ((q, q) if q < counts[d] - 1 else (q - 1, q - 1))
    parts = []
    for name, position, part in field.parts:
        dep = part.attribute(b"dep")
        on = dep.text if dep is not None else (b"positions" if name == b"data" else None)
        if name == b"positions":
            array = moved(part.array, new_counts, d, q, n)
        elif not new_long and (name == b"connections" or on == b"connections"):
            continue
        elif name == b"connections":
            array = Array(part.array.elem, (2 ** len(new_long),), CELLS, product([c - 1 for c in new_long]),
                          counts=new_long)
        elif on == b"positions":
            array = kept(part.array, counts, d, q, q + t)
        elif on == b"connections":
            array = kept(part.array, cells, cell_axis, low, high)
        else:
            parts.append((name, position, part))
            continue
        parts.append((name, position, Object("a", array, attrs=part.attrs)))
    return Object("f", parts=parts, attrs=field.attrs)


def moved(array, new_counts, d, q, n):
    """The positions of a slab."""
    origin = [o + q * array.deltas[d * n + k] for k, o in enumerate(array.origin)]
    return Array(array.elem, array.shape, GRID, product(new_counts), origin=origin, deltas=array.deltas,
                 counts=new_counts)


def product(numbers):
    """The product of numbers."""
    out = 1
    for number in numbers:
        out *= number
    return out
