"""The answers of the modules: results, or a refusal."""

from math import isqrt

from .base import INT, INT_MAX, INT_MIN, TYPE_NAMES, Refuse
from .compute import run_compute
from .fields import any_fault, grid_counts
from .native_read import BadFile, read_object
from .objects import CELLS, GRID, PLAIN, Array, Object, ints, text, with_part, within, without_part
from .printing import text_or_null
from .slab import need, run_slab

DATA, SAVED = b"data", b"saved data"


def unused(*values):
    """Unsupported unless all are NULL."""
    if any(value is not None for value in values):
        raise Refuse(b"Unsupported")


def as_number(n):
    """A number of type int, or NULL outside its range."""
    return Object("a", Array(INT, (), PLAIN, 1, [n])) if INT_MIN <= n <= INT_MAX else None


def name_or(value, default):
    """The text of a name, or the default for NULL."""
    need(text_or_null(value))
    return value.text if value is not None else default


def component(field, name):
    """The component, else NoComponent."""
    part = field.part(name)
    if part is None:
        raise Refuse(b"NoComponent")
    return part


def run_import(inputs, content):
    """Import of a native file."""
    name, variable, form, start, end, delta = inputs
    need(name is not None and name.kind == "t")
    need(text_or_null(variable))
    need(text_or_null(form))
    if form is not None and form.text != b"dx":
        raise Refuse(b"Unsupported")
    unused(start, end, delta)
    if content is None:
        raise Refuse(b"NoFile")
    try:
        obj = read_object(content, variable.text if variable is not None else None)
    except BadFile as bad:
        raise Refuse(b"BadFile %s %d" % (bad.kind.encode(), bad.at)) from None
    if any_fault(obj):
        raise Refuse(b"BadField")
    return [obj]


def run_select(inputs):
    """Select a member."""
    group, which, left_out = inputs
    need(group is not None and group.kind in "gs")
    place = 0
    if which is not None and which.kind == "t":
        place = None
    elif which is not None:
        place = which.number()
        need(place is not None)
    unused(left_out)
    if place is None:
        part = group.part(which.text) if group.kind == "g" else None
    else:
        part = group.parts[place][2] if 0 <= place < len(group.parts) else None
    if part is None:
        raise Refuse(b"NoMember")
    return [part]


def extract(obj, name):
    """The component of a field, or each member so replaced."""
    need(obj is not None and obj.kind in "fgs")
    if obj.kind == "f":
        return component(obj, name)
    parts = [(own, position, extract(part, name)) for own, position, part in obj.parts]
    composite = obj.composite and all(p[2].kind == "f" for p in parts)
    return Object(obj.kind, parts=parts, attrs=obj.attrs, composite=composite)


def run_extract(inputs):
    """Extract a component."""
    obj, name = inputs
    need(obj is not None and obj.kind in "fgs")
    return [within(extract(obj, name_or(name, DATA)))]


def run_replace(inputs):
    """Replace a component."""
    source, field, source_name, name = inputs
    need(source is None or source.kind in "af")
    need(field is not None and field.kind == "f")
    source_name, name = name_or(source_name, DATA), name_or(name, DATA)
    if source is None:
        component(field, name)
        return [without_part(field, name)]
    part = component(source, source_name) if source.kind == "f" else source
    return [within(with_part(field, name, part))]


def run_mark(inputs):
    """Mark a component as data."""
    field, name = inputs
    need(field is not None and field.kind == "f" and field.part(SAVED) is None)
    need(name is not None and name.kind == "t")
    part = component(field, name.text)
    data = field.part(DATA)
    if data is not None:
        field = with_part(field, SAVED, data)
    return [within(with_part(field, DATA, part))]


def run_unmark(inputs):
    """Undo Mark."""
    field, name = inputs
    need(field is not None and field.kind == "f")
    need(name is not None and name.kind == "t")
    field = with_part(field, name.text, component(field, DATA))
    saved = field.part(SAVED)
    if saved is not None:
        field = without_part(with_part(field, DATA, saved), SAVED)
    elif name.text != DATA:
        field = without_part(field, DATA)
    return [within(field)]


def numbers_of(value):
    """The items of Statistics and Histogram."""
    need(value is not None and value.kind in "af")
    array = (component(value, DATA) if value.kind == "f" else value).array
    need(not array.shape and array.items > 0)
    return [array.item(i)[0] for i in range(array.items)]


def run_statistics(inputs):
    """Mean, standard deviation, variance, least and greatest."""
    values = numbers_of(inputs[0])
    n, s, z = len(values), sum(values), sum(v * v for v in values)
    variance = (n * z - s * s) // (n * n)
    return [as_number(v) for v in (s // n, isqrt(variance), variance, min(values), max(values))]


def number_or(value, default):
    """A number, or the default for NULL."""
    if value is None:
        return default
    need(value.number() is not None)
    return value.number()


def run_histogram(inputs):
    """Counts by bins, and the median."""
    values = numbers_of(inputs[0])
    bins = number_or(inputs[1], 100)
    need(1 <= bins <= 65536)
    low, high = number_or(inputs[2], min(values)), number_or(inputs[3], max(values))
    unused(inputs[4])
    need(low <= high)
    w = high - low + 1
    counted = sorted(v for v in values if low <= v <= high)
    counts = [0] * bins
    for v in counted:
        counts[(v - low) * bins // w] += 1
    places = [low + -(-b * w // bins) for b in range(bins + 1)]
    if any(not INT_MIN <= p <= INT_MAX for p in places):
        raise Refuse(b"Overflow")
    positions = Object("a", Array(INT, (1,), PLAIN, bins + 1, places))
    lines = [(b"element type", text(b"lines")), (b"ref", text(b"positions"))]
    connections = Object("a", Array(INT, (2,), CELLS, bins, counts=(bins + 1,)), attrs=lines)
    data = Object("a", Array(INT, (), PLAIN, bins, counts), attrs=[(b"dep", text(b"connections"))])
    field = Object("f", parts=[(b"positions", 0, positions), (b"connections", 0, connections), (DATA, 0, data)])
    return [within(field), as_number(counted[(len(counted) - 1) // 2]) if counted else None]


def run_collect(inputs):
    """A group of all objects."""
    return [within(Object("g", parts=[(None, 0, o) for o in inputs if o is not None]))]


def pairs(inputs):
    """Objects that aren't NULL with what stands beside each."""
    given = list(inputs) + [None] * (len(inputs) % 2)
    return [(given[i], given[i + 1]) for i in range(0, len(given), 2) if given[i] is not None]


def run_collect_named(inputs):
    """A group of named objects."""
    parts, names = [], set()
    for obj, name in pairs(inputs):
        need(text_or_null(name))
        if name is not None:
            need(name.text not in names)
            names.add(name.text)
        parts.append((name.text if name is not None else None, 0, obj))
    return [within(Object("g", parts=parts))]


def run_collect_series(inputs):
    """A series of objects at positions."""
    parts = []
    for obj, position in pairs(inputs):
        number = position.number() if position is not None else None
        need(number is not None and INT_MIN <= number <= INT_MAX)
        parts.append((None, number, obj))
    return [within(Object("s", parts=parts))]


KINDS = {b"is array": "a", b"is string": "t", b"is field": "f", b"is group": "g", b"is series": "s"}


def grid_of(obj):
    """The counts for `grid counts`."""
    need(obj is not None)
    counts = None
    if obj.kind == "a" and obj.array.cls in (GRID, CELLS):
        counts = obj.array.counts
    elif obj.kind == "f":
        counts = grid_counts(obj)
    need(counts is not None)
    if max(counts) > INT_MAX:
        raise Refuse(b"Overflow")
    return ints(counts)


def run_inquire(inputs):
    """Inquire about an object."""
    obj, inquiry, value = inputs
    inquiry = name_or(inquiry, b"is null")
    unused(value)
    if inquiry == b"is null":
        return [as_number(int(obj is None))]
    if inquiry in KINDS:
        return [as_number(int(obj is not None and obj.kind == KINDS[inquiry]))]
    if inquiry == b"member count":
        need(obj is not None and obj.kind in "fgs")
        return [as_number(len(obj.parts))]
    if inquiry == b"grid counts":
        return [grid_of(obj)]
    if inquiry not in (b"items", b"rank", b"type", b"shape"):
        raise Refuse(b"Unsupported")
    need(obj is not None and obj.kind in "af")
    if obj.kind == "f":
        obj = obj.part(DATA)
        need(obj is not None)
    array = obj.array
    if inquiry == b"items":
        return [as_number(array.items)]
    if inquiry == b"rank":
        return [as_number(len(array.shape))]
    return [text(TYPE_NAMES[array.elem])] if inquiry == b"type" else [ints(array.shape)]


RUNS = {b"Select": run_select, b"Extract": run_extract, b"Replace": run_replace, b"Mark": run_mark,
        b"Unmark": run_unmark, b"Slab": run_slab, b"Compute": run_compute, b"Statistics": run_statistics,
        b"Histogram": run_histogram, b"Collect": run_collect, b"CollectNamed": run_collect_named,
        b"CollectSeries": run_collect_series, b"Inquire": run_inquire}


def answer(module, inputs, content):
    """The results of a module, or Refuse."""
    if module == b"Import":
        return run_import(inputs, content)
    return RUNS[module](inputs)
