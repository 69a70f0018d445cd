"""Compute: shapes, items, fields and groups."""

from .base import INT, INT_MAX, INT_MIN, MAX_ITEMS, MAX_VALUES, Refuse
from .expression import parse_expression
from .objects import PLAIN, Array, Object, with_array, with_part, within

MISFIT = b"ItemMismatch"
BY_VALUE = ("+", "-", "*", "/", "%", "min", "max")
SCALAR = ("<", "<=", ">", ">=", "==", "!=", "&&", "||")


def shape_of(tree, arrays):
    """The shape of an expression; ItemMismatch where the shapes don't fit."""
    kind = tree[0]
    if kind == "int":
        return ()
    if kind == "input":
        return arrays[tree[1]].shape
    if kind == "part":
        shape = shape_of(tree[1], arrays)
        if len(shape) != 1 or tree[2] >= shape[0]:
            raise Refuse(MISFIT)
        return ()
    if kind == "vector":
        for part in tree[1]:
            need_scalar(part, arrays)
        return (len(tree[1]),)
    if kind in ("neg", "abs", "sign"):
        return shape_of(tree[1], arrays)
    if kind == "not":
        return need_scalar(tree[1], arrays)
    if kind == "?":
        need_scalar(tree[1], arrays)
        yes, no = shape_of(tree[2], arrays), shape_of(tree[3], arrays)
        if yes != no:
            raise Refuse(MISFIT)
        return yes
    left, right = shape_of(tree[1], arrays), shape_of(tree[2], arrays)
    if kind in BY_VALUE:
        if left and right and left != right:
            raise Refuse(MISFIT)
        return left or right
    if kind == "dot":
        fits = len(left) == 1 and left == right
    else:
        fits = not left and not right
    if not fits:
        raise Refuse(MISFIT)
    return ()


def need_scalar(tree, arrays):
    """Needs rank 0."""
    if shape_of(tree, arrays):
        raise Refuse(MISFIT)
    return ()


def checked(n):
    """The number, where it lies in the int range."""
    if not INT_MIN <= n <= INT_MAX:
        raise Refuse(b"Overflow")
    return n


def divide(a, b):
    """The quotient cut towards zero."""
    if b == 0:
        raise Refuse(b"DivisionByZero")
    q = abs(a) // abs(b)
    return q if (a < 0) == (b < 0) else -q


def rest(a, b):
    """What the division leaves."""
    return a - b * divide(a, b)


OPERATORS = {
    "+": lambda a, b: a + b, "-": lambda a, b: a - b, "*": lambda a, b: a * b, "/": divide, "%": rest,
    "min": min, "max": max, "<": lambda a, b: int(a < b), "<=": lambda a, b: int(a <= b),
    ">": lambda a, b: int(a > b), ">=": lambda a, b: int(a >= b), "==": lambda a, b: int(a == b),
    "!=": lambda a, b: int(a != b),
}


def values_of(tree, items):
    """The values of an expression over the items of the inputs."""
    kind = tree[0]
    if kind == "int":
        return [tree[1]]
    if kind == "input":
        return [checked(v) for v in items[tree[1]]]
    if kind == "part":
        return [values_of(tree[1], items)[tree[2]]]
    if kind == "vector":
        return [values_of(part, items)[0] for part in tree[1]]
    if kind == "neg":
        return [checked(-v) for v in values_of(tree[1], items)]
    if kind == "abs":
        return [checked(abs(v)) for v in values_of(tree[1], items)]
    if kind == "sign":
        return [(v > 0) - (v < 0) for v in values_of(tree[1], items)]
    if kind == "not":
        return [int(values_of(tree[1], items)[0] == 0)]
    if kind == "?":
        return values_of(tree[2] if values_of(tree[1], items)[0] else tree[3], items)
    left = values_of(tree[1], items)
    if kind in ("&&", "||"):
        if (left[0] != 0) == (kind == "||"):
            return [int(kind == "||")]
        return [int(values_of(tree[2], items)[0] != 0)]
    right = values_of(tree[2], items)
    if kind == "dot":
        return [dot(left, right)]
    if len(left) != len(right):
        width = max(len(left), len(right))
        left, right = (left * width if len(left) == 1 else left), (right * width if len(right) == 1 else right)
    operator = OPERATORS[kind]
    return [checked(operator(a, b)) for a, b in zip(left, right)]


def dot(left, right):
    """The sum of the products, each checked."""
    total = None
    for a, b in zip(left, right):
        product = checked(a * b)
        total = product if total is None else checked(total + product)
    return total


def run_compute(inputs):
    """The answer of Compute."""
    if inputs[0] is None or inputs[0].kind != "t":
        raise Refuse(b"BadArgument")
    tree, used = parse_expression(inputs[0].text)
    return [compute(tree, used, inputs[1:])]


def compute(tree, used, given):
    """The answer for the inputs given."""
    for k in used:
        if k >= len(given) or given[k] is None or given[k].kind == "t":
            raise Refuse(b"BadArgument")
    groups = [k for k in used if given[k].kind in "gs"]
    if groups:
        return over_groups(tree, used, given, groups)
    arrays, field = {}, None
    for k in used:
        own = given[k]
        if own.kind == "f":
            field = field or own
            own = own.part(b"data")
            if own is None:
                raise Refuse(b"NoComponent")
        arrays[k] = own.array
    array = over_arrays(tree, used, arrays)
    if field is None:
        return limited(array, lambda: Object("a", array))
    data = field.part(b"data")
    if array.items != data.array.items:
        raise Refuse(MISFIT)
    return limited(array, lambda: with_part(field, b"data", with_array(data, array)))


def limited(array, make):
    """The object of a result, TooLarge beyond a limit."""
    if array.items > MAX_ITEMS or array.items * array.width > MAX_VALUES:
        raise Refuse(b"TooLarge")
    return within(make())


def over_arrays(tree, used, arrays):
    """The array of an expression over arrays."""
    lengths = {arrays[k].items for k in used if arrays[k].items != 1}
    if len(lengths) > 1:
        raise Refuse(MISFIT)
    shape = shape_of(tree, arrays)
    items = lengths.pop() if lengths else 1
    fixed = {k: arrays[k].item(0) for k in used if arrays[k].items == 1}
    values = []
    for i in range(items):
        own = dict(fixed)
        for k in used:
            if k not in fixed:
                own[k] = arrays[k].item(i)
        values += values_of(tree, own)
    return Array(INT, shape, PLAIN, items, values)


def over_groups(tree, used, given, groups):
    """The answer over groups and series, member by member."""
    first = given[groups[0]]
    if any(len(given[k].parts) != len(first.parts) for k in groups):
        raise Refuse(MISFIT)
    parts = []
    for i, (name, position, _old) in enumerate(first.parts):
        own = list(given)
        for k in groups:
            own[k] = given[k].parts[i][2]
        parts.append((name, position, compute(tree, used, own)))
    composite = first.composite and all(p[2].kind == "f" for p in parts)
    return within(Object(first.kind, parts=parts, attrs=first.attrs, composite=composite))
