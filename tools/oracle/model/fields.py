"""Checks of fields and their grids."""

from .objects import CELLS, GRID


def field_fault(field):
    """Whether check_field refuses the field."""
    for _name, _position, part in field.parts:
        for word in (b"dep", b"ref"):
            own = part.attribute(word)
            if own is None:
                continue
            other = field.part(own.text) if own.kind == "t" else None
            if other is None:
                return True
            if word == b"dep":
                if other.array.items != part.array.items:
                    return True
                continue
            bounds = part.array.bounds()
            if bounds is not None and part.array.width and (bounds[0] < 0 or bounds[1] >= other.array.items):
                return True
    return False


def any_fault(obj):
    """Whether the object, or one that it reaches through parts, is a field that is refused."""
    if obj.kind == "f":
        return field_fault(obj)
    return any(any_fault(part) for _name, _position, part in obj.parts)


def grid_counts(field):
    """The counts of the grid that a field is, or None."""
    positions, connections = field.part(b"positions"), field.part(b"connections")
    if positions is None or positions.array.cls != GRID:
        return None
    counts = positions.array.counts
    long = tuple(c for c in counts if c != 1)
    if not long:
        return counts if connections is None else None
    if connections is None or connections.array.cls != CELLS or connections.array.counts != long:
        return None
    return counts
