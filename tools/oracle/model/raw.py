"""Random native files with raw data in both orders of bytes, item counts that lie, and splices of two files."""

from .base import TYPE_BYTES, TYPE_NAMES, TYPE_RANGE
from .samples import FIELD, native_text, pick_shape, pick_value

ORDERS = [b"msb ", b"lsb ", b""]
MODES = [b"binary ", b"ieee ", b"binary ", b"ieee ", b"text ", b"ascii ", b""]
ENDS_OF_LINE = [b"\n", b" \n", b"\r\n", b"\t \r\n"] * 5 + [b"", b" ", b",\n", b"#\n", b"\n\n"]
LIES = [0] * 15 + [1, -1, 2, -2, 255, 65536, 16777215]


def raw_bytes(elem, order, values):
    """The bytes of values in two's complement."""
    width = TYPE_BYTES[elem]
    end = "little" if order == b"lsb " else "big"
    return b"".join((v % (1 << (8 * width))).to_bytes(width, end) for v in values)


def raw_array(rng, name):
    """The clause of an array; its data are mostly raw, and its number of items is at times another than that of its data."""
    elem, shape = rng.randrange(6), pick_shape(rng)
    width = 1
    for extent in shape:
        width *= extent
    order, mode = rng.choice(ORDERS), rng.choice(MODES)
    constant = rng.random() < 0.25
    items = rng.choice([0, 1, 2, 3, 5, 17, 300])
    if rng.random() < 0.15:
        values = [rng.choice(TYPE_RANGE[elem]) for _ in range(width * (1 if constant else items))]
    else:
        values = [pick_value(rng, elem) for _ in range(width * (1 if constant else items))]
    rank = b" rank %d" % len(shape) if shape or rng.random() < 0.5 else b""
    rank += b" shape " + b" ".join(b"%d" % e for e in shape) if shape else b""
    head = b"object %s class %s type %s%s items %d %s%sdata follows" % (
        name, b"constantarray" if constant else b"array", TYPE_NAMES[elem], rank, max(0, items + rng.choice(LIES)), order, mode)
    if mode in (b"binary ", b"ieee "):
        return head + rng.choice(ENDS_OF_LINE) + raw_bytes(elem, order, values)
    return head + b"\n" + rng.choice([b" ", b"\n", b", "]).join(b"%d" % v for v in values)


def raw_text(rng):
    """A few arrays, what is said behind them, and at times objects that refer to them."""
    names = rng.sample([b"1", b"2", b"a", b'"b c"', b"end2"], rng.randint(1, 3))
    out = []
    for name in names:
        out.append(raw_array(rng, name))
        out.append(rng.choice([b"", b"\n", b" ", b'\nattribute "dep" string "positions"\n', b' attribute "n" number -5 ']))
    form = rng.random()
    if form < 0.25:
        out.append(b'object f class field component "data" value %s component "x" %s\n' % (names[0], names[-1]))
    elif form < 0.5:
        out.append(b'object g class group member 0 %s member "m" value %s\n' % (names[-1], names[0]))
    out.append(rng.choice([b"", b"end", b"end\n", b"\ndefault %s\n" % names[0], b"end \xff\x00"]))
    return b"".join(out)


def changed(rng, data):
    """The text with one to three bytes changed, cut, or spliced with itself."""
    form = rng.random()
    if form < 0.2:
        return data[:rng.randint(0, len(data))]
    if form < 0.35:
        at, to = rng.randint(0, len(data)), rng.randint(0, len(data))
        return data[:at] + data[to:]
    for _ in range(rng.choice([1, 1, 1, 2, 3])):
        at = rng.randint(0, max(0, len(data) - 1))
        data = data[:at] + bytes([rng.randrange(256)]) + data[at + 1:]
    return data


def raw_file(rng):
    """A native file that has raw data, is damaged, or is spliced from two."""
    form = rng.random()
    if form < 0.35:
        return raw_text(rng)
    if form < 0.8:
        return changed(rng, raw_text(rng))
    first, second = raw_text(rng), rng.choice([raw_text, native_text, lambda _: FIELD])(rng)
    if rng.random() < 0.5:
        first, second = second, first
    return first[:rng.randint(0, len(first))] + second[rng.randint(0, len(second)):]
