"""Arrays by class and objects with their limits: the values that the evaluator computes with."""

from .base import (INT, MAX_ITEMS, MAX_LEVELS, MAX_OBJECTS, MAX_SIZE, MAX_VALUES, TYPE_BYTES, TYPE_NAMES, Refuse,
                   decimal)

PLAIN, CONSTANT, REGULAR, GRID, CELLS = range(5)
CLASS_NAMES = (b"plain", b"constant", b"regular", b"gridpositions", b"gridconnections")


class Array:
    """An array by its class: `values` flat for a plain array, `origin` and `deltas` as the class has them."""

    __slots__ = ("elem", "shape", "cls", "items", "width", "values", "origin", "deltas", "counts")

    def __init__(self, elem, shape, cls, items, values=(), origin=(), deltas=(), counts=()):
        self.elem, self.shape, self.cls, self.items = elem, tuple(shape), cls, items
        self.values, self.origin, self.deltas, self.counts = values, tuple(origin), tuple(deltas), tuple(counts)
        width = 1
        for extent in self.shape:
            width *= extent
        self.width = width

    def item(self, i):
        """Item number i as a list of its values."""
        if self.cls == PLAIN:
            return self.values[i * self.width:(i + 1) * self.width]
        if self.cls == CONSTANT:
            return list(self.origin)
        if self.cls == REGULAR:
            return [o + i * d for o, d in zip(self.origin, self.deltas)]
        if self.cls == GRID:
            return self._point(indices_of(i, self.counts))
        return self._corners(indices_of(i, [c - 1 for c in self.counts]))

    def _point(self, place):
        n = len(self.counts)
        out = list(self.origin)
        for axis in range(n):
            for k in range(n):
                out[k] += place[axis] * self.deltas[axis * n + k]
        return out

    def _corners(self, place):
        corners = [0]
        for axis, count in enumerate(self.counts):
            corners = [c * count + place[axis] + step for c in corners for step in (0, 1)]
        return sorted(corners)

    def bounds(self):
        """The least and the greatest value of all items, or None where there is none."""
        if self.items == 0:
            return None
        if self.cls == PLAIN:
            return min(self.values), max(self.values)
        if self.cls == CELLS:
            last = 1
            for c in self.counts:
                last *= c
            return 0, last - 1
        if self.cls == GRID:
            return grid_bounds(self.counts, self.origin, self.deltas)
        both = self.item(0) + self.item(self.items - 1)
        return min(both), max(both)

    def size(self):
        """The stated size in bytes."""
        one = TYPE_BYTES[self.elem]
        n = len(self.counts)
        if self.cls == PLAIN:
            return 64 + self.items * self.width * one
        if self.cls == CONSTANT:
            return 64 + self.width * one
        if self.cls == REGULAR:
            return 64 + 2 * self.width * one
        return 64 + (4 * (2 * n + n * n) if self.cls == GRID else 4 * n)

    def header(self):
        """Class, type, rank, shape and items as Print writes them, after the word `array`."""
        return b" ".join([CLASS_NAMES[self.cls], TYPE_NAMES[self.elem], shape_words(self.shape), b"items",
                          decimal(self.items)])


def shape_words(shape):
    """`rank R` and, where R is above 0, `shape` and the extents."""
    words = b"rank " + decimal(len(shape))
    if shape:
        words += b" shape " + b" ".join(decimal(e) for e in shape)
    return words


def indices_of(i, counts):
    """The indices of place i in a grid whose last index varies fastest."""
    out = []
    for count in reversed(counts):
        out.append(i % count)
        i //= count
    out.reverse()
    return out


def grid_bounds(counts, origin, deltas):
    """The least and greatest value of any point of a grid."""
    n = len(counts)
    low, high = list(origin), list(origin)
    for axis in range(n):
        for k in range(n):
            move = (counts[axis] - 1) * deltas[axis * n + k]
            low[k] += min(0, move)
            high[k] += max(0, move)
    return min(low), max(high)


class Object:
    """An object: kind is one of `a t f g s`; parts are (name or None, position, object), attributes (name, object)."""

    __slots__ = ("kind", "array", "text", "parts", "attrs", "composite", "size", "levels", "count")

    def __init__(self, kind, array=None, text=None, parts=(), attrs=(), composite=False):
        self.kind, self.array, self.text, self.parts, self.attrs = kind, array, text, tuple(parts), tuple(attrs)
        self.composite = composite
        size = array.size() if array is not None else 64 + (len(text) if text is not None else 0)
        levels, count = 0, 1
        for name, _position, part in self.parts:
            size += (len(name) if name is not None else 0) + (4 if kind == "s" else 0) + part.size
            levels, count = max(levels, part.levels), count + part.count
        for name, part in self.attrs:
            size += len(name) + part.size
            levels, count = max(levels, part.levels), count + part.count
        self.size, self.levels, self.count = size, levels + 1, count

    def part(self, name):
        """The first part of that name, or None."""
        for own, _position, part in self.parts:
            if own == name:
                return part
        return None

    def attribute(self, name):
        """The attribute of that name, or None."""
        for own, part in self.attrs:
            if own == name:
                return part
        return None

    def number(self):
        """The value of a number (an array of rank 0 with one item), or None."""
        a = self.array
        if a is None or a.items != 1 or a.shape:
            return None
        return a.item(0)[0]


def within(obj):
    """The object, where it is within the limits of objects; TooLarge otherwise."""
    if obj.levels > MAX_LEVELS or obj.count > MAX_OBJECTS or obj.size > MAX_SIZE:
        raise Refuse(b"TooLarge")
    return obj


def plain(elem, shape, values, items=None):
    """A plain array as an object without attributes; TooLarge beyond a limit."""
    width = 1
    for extent in shape:
        width *= extent
    array = Array(elem, shape, PLAIN, len(values) // width if items is None else items, values)
    if array.items > MAX_ITEMS or array.items * array.width > MAX_VALUES:
        raise Refuse(b"TooLarge")
    return within(Object("a", array))


def ints(values):
    """A plain int array of rank 0."""
    return plain(INT, (), list(values))


def text(content):
    """A text without attributes."""
    return Object("t", text=content)


def with_part(obj, name, part):
    """The field with the component in its place, or last; no limit is looked at."""
    parts = list(obj.parts)
    for i, (own, position, _old) in enumerate(parts):
        if own == name:
            parts[i] = (own, position, part)
            break
    else:
        parts.append((name, 0, part))
    return Object(obj.kind, parts=parts, attrs=obj.attrs, composite=obj.composite)


def without_part(obj, name):
    """The field without the component."""
    return Object(obj.kind, parts=[p for p in obj.parts if p[0] != name], attrs=obj.attrs, composite=obj.composite)


def with_array(obj, array):
    """An array object with another array and the same attributes."""
    return Object("a", array, attrs=obj.attrs)
