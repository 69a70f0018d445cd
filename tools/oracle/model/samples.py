"""Random objects and native files to import, valid and damaged."""

from .base import INT, TYPE_NAMES, TYPE_RANGE
from .native_write import write_object
from .objects import CELLS, CONSTANT, GRID, PLAIN, REGULAR, Array, Object, text

NAMES = [b"data", b"positions", b"connections", b"a", b"b", b"saved data", b"extra"]
WORDS = [b"quads", b"x", b"", b"a\"b", b"l\\n", b"two\nlines", b"\xff\x00z", b"positions", b"7"]


def pick_value(rng, elem):
    """A value of an element type, mostly small."""
    low, high = TYPE_RANGE[elem]
    n = rng.choice((rng.randint(-9, 9), rng.randint(0, 200), low, high, rng.randint(low, high), rng.randint(0, 5)))
    return min(high, max(low, n))


def pick_shape(rng):
    """A shape of rank 0 to 2, mostly 0."""
    return rng.choice([(), (), (), (), (1,), (2,), (2,), (3,), (2, 2), (1, 3)])


def random_array(rng, items=None):
    """An array of any class."""
    if items is None and rng.random() < 0.25:
        counts = tuple(rng.choice([1, 2, 2, 3, 4]) for _ in range(rng.randint(1, 3)))
        return cells(counts) if rng.random() < 0.4 else grid(rng, counts)
    elem, shape = rng.choice([INT, INT, INT, rng.randrange(6)]), pick_shape(rng)
    width = 1
    for extent in shape:
        width *= extent
    items = rng.choice([0, 1, 1, 2, 3, 4, 5, 12, 60]) if items is None else items
    form = rng.random()
    if form < 0.15:
        return Array(elem, shape, CONSTANT, items, origin=[pick_value(rng, elem) for _ in range(width)])
    if form < 0.3:
        return regular(rng, elem, shape, width, items)
    return Array(elem, shape, PLAIN, items, [pick_value(rng, elem) for _ in range(items * width)])


def regular(rng, elem, shape, width, items):
    """A regular array whose items fit its type."""
    low, high = TYPE_RANGE[elem]
    origin = [rng.randint(max(low, -20), 40) for _ in range(width)]
    delta = [rng.randint(-3, 3) for _ in range(width)]
    for k in range(width):
        last = origin[k] + (items - 1) * delta[k]
        if items and not low <= last <= high:
            delta[k] = 0
    return Array(elem, shape, REGULAR, items, origin=origin, deltas=delta)


def grid(rng, counts):
    """Positions of a grid."""
    n, items = len(counts), 1
    for c in counts:
        items *= c
    deltas = [int(i == k) if rng.random() < 0.8 else rng.randint(-5, 5) for i in range(n) for k in range(n)]
    return Array(INT, (n,), GRID, items, origin=[rng.randint(-3, 3) for _ in range(n)], deltas=deltas, counts=counts)


def cells(counts):
    """Connections of a grid."""
    items = 1
    for c in counts:
        items *= c - 1
    return Array(INT, (2 ** len(counts),), CELLS, items, counts=counts)


def random_attrs(rng, more=()):
    """A few attributes."""
    attrs = list(more)
    while rng.random() < 0.2 and len(attrs) < 4:
        name = rng.choice([b"note", b"n2", b"\"q\"", b"", b"shape"])
        if name not in [a[0] for a in attrs]:
            attrs.append((name, rng.choice([text(rng.choice(WORDS)), Object("a", random_array(rng)),
                                            Object("t", text=b"t", attrs=[(b"in", text(b"ner"))]),
                                            Object("a", Array(INT, (), PLAIN, 1, [rng.randint(-9, 9)]))])))
    return attrs


def random_field(rng):
    """A field over a grid, with data on positions or connections and more components."""
    counts = tuple(rng.choice([1, 2, 2, 3, 4, 5]) for _ in range(rng.randint(1, 3)))
    long = tuple(c for c in counts if c != 1)
    points = grid(rng, counts)
    parts = [(b"positions", 0, Object("a", points, attrs=random_attrs(rng)))]
    mesh = cells(long) if long else None
    if mesh is not None and rng.random() < 0.95:
        ref = [(b"element type", text(b"quads")), (b"ref", text(b"positions"))] if rng.random() < 0.7 else []
        parts.append((b"connections", 0, Object("a", mesh, attrs=random_attrs(rng, ref))))
    if rng.random() < 0.95:
        on_cells = len(parts) == 2 and rng.random() < 0.3
        items = mesh.items if on_cells else points.items
        dep = [(b"dep", text(b"connections" if on_cells else b"positions"))] if on_cells or rng.random() < 0.8 else []
        if rng.random() < 0.04:
            items += 1
        array = Array(INT, (), PLAIN, items, [rng.randint(-9, 30) for _ in range(items)])
        if rng.random() < 0.3:
            array = random_array(rng, items)
        parts.append((b"data", 0, Object("a", array, attrs=random_attrs(rng, dep))))
    while rng.random() < 0.2 and len(parts) < 6:
        name = rng.choice(NAMES)
        if name not in [p[0] for p in parts]:
            more = rng.choice([[], [], [(b"dep", text(rng.choice(NAMES)))], [(b"ref", text(rng.choice(NAMES)))],
                               [(b"dep", text(b"positions"))], [(b"dep", text(b"data"))]])
            size = rng.choice([points.items, points.items, None])
            parts.append((name, 0, Object("a", random_array(rng, size), attrs=random_attrs(rng, more))))
    if rng.random() < 0.15:
        rng.shuffle(parts)
    return Object("f", parts=parts, attrs=random_attrs(rng))


def random_object(rng, depth=2):
    """An object of any kind."""
    form = rng.random()
    if depth == 0 or form < 0.3:
        return Object("a", random_array(rng), attrs=random_attrs(rng))
    if form < 0.37:
        return Object("t", text=rng.choice(WORDS), attrs=random_attrs(rng))
    if form < 0.65:
        return random_field(rng)
    count = rng.choice([0, 1, 2, 2, 3])
    if form < 0.75:
        parts = [(None, rng.randint(-5, 5), random_object(rng, depth - 1)) for _ in range(count)]
        return Object("s", parts=parts, attrs=random_attrs(rng))
    composite = rng.random() < 0.4
    names = rng.sample([b"a", b"b", b"c", b"data", b"in \"x\""], count)
    parts = [(rng.choice([n, n, None]), 0, random_field(rng) if composite else random_object(rng, depth - 1))
             for n in names]
    return Object("g", parts=parts, attrs=random_attrs(rng), composite=composite)


# Native texts that write_object doesn't write: other spellings, binary data, names, defaults.

HEADS = [b"object 1 class array type int rank 0 items 3 data follows\n 1 2 3\n",
         b'object "a" class array type short category real rank 1 shape 2 items 2 lsb binary data follows \r\n'
         b'\x01\x00\xff\xff\x02\x00\x00\x80\n',
         b"object a class array type unsigned byte items 4 ieee data follows\n\x00\x01\xfe\xff",
         b"object 3 class constantarray type byte rank 2 shape 2 2 items 7 data follows 1, 2, 3, 255\n",
         b"object r class regulararray type ushort items 5 origin 10 delta 2.00\n",
         b'object 4 class gridpositions counts 4 3 origin 0 0 delta 1 0 delta 0 1.0\n',
         b'object 5 class gridconnections counts 4 3 attribute "element type" string "quads" '
         b'attribute "ref" string "positions"\n',
         b'object "s" class string "a\\n\\"b\\\\" # a comment\n attribute "x" number -7 attribute "y" value 1\n']
FIELD = (b'object 1 class array type int rank 0 items 12 data follows\n 1 2 3 4 5 6 7 8 9 10 11 12\n'
         b'attribute "dep" string "positions"\n'
         b'object 4 class gridpositions counts 4 3 origin 0 0 delta 1 0 delta 0 1.0\n'
         b'object 5 class gridconnections counts 4 3 attribute "ref" string "positions"\n'
         b'object "f" class field component "positions" value 4 component "connections" 5\n'
         b'component "data" value 1 attribute "note" "1"\n')
GROUPS = [FIELD + b'object g class group member "x" value f member 1 value "1" member "y" 5\nend\n',
          FIELD + b'object "c" class compositefield member 0 value f member "z" f attribute "q" f\nend junk "',
          FIELD + b'object "t" class series member 0 position -3 value f member 1 position 4 1\ndefault t\nend\n',
          FIELD + b'object value class string "v"\nobject g class group member 0 value value member 1 value "f"\n'
          b'default "g"\n']


def native_text(rng):
    """A native text in some spelling, valid in most cases."""
    form = rng.random()
    if form < 0.45:
        return write_object(random_object(rng, 3))
    if form < 0.65:
        return rng.choice(GROUPS)
    if form < 0.7:
        return FIELD + rng.choice([b"", b"end", b"default 4 end", b'default "1"\n', b"default none"])
    clauses = rng.sample(HEADS, rng.randint(1, 3))
    return b"".join(clauses) + rng.choice([b"", b"end\n", b"default 1\n", b"default r", b"default a end"])


BYTES = b' \t\r\n,#"\\0123456789+-.eaxZ_\x00\xff'
TOKENS = [b"object", b"class", b"array", b"type", b"int", b"rank", b"shape", b"items", b"data", b"follows", b"end",
          b"attribute", b"string", b"number", b"value", b"component", b"member", b"position", b"default", b"file",
          b"origin", b"delta", b"counts", b"field", b"group", b"series", b"compositefield", b"gridpositions",
          b"gridconnections", b"regulararray", b"constantarray", b"msb", b"lsb", b"binary", b"ieee", b"text",
          b"ascii", b"float", b"double", b"signed", b"unsigned", b"byte", b"short", b"category", b"real", b"0", b"1",
          b"2", b"3", b"-1", b"256", b"257", b"16777216", b"16777217", b"4294967295", b"4294967296", b"2147483647",
          b"2147483648", b"-2147483649", b"99999999999999999999", b"-0", b"+0", b"0.0", b"1.", b"1.5", b".5", b"-.5",
          b"1e5", b"0x10", b"5000", b'"f"', b'"data"', b'"a', b'"\\x"', b'""', b"g", b"f", b"#", b",", b"\n", b"a#b",
          b'a"b"']


def damage(rng, data):
    """The text cut, or with one to three bytes or words changed."""
    form = rng.random()
    if form < 0.25:
        return data[:rng.randint(0, len(data))]
    for _ in range(rng.choice([1, 1, 1, 2, 3])):
        data = damage_once(rng, data)
    return data


def damage_once(rng, data):
    """One change at one place."""
    at = rng.randint(0, len(data))
    form = rng.random()
    if form < 0.3:
        return data[:at] + bytes([rng.choice(BYTES)]) + data[at + 1:]
    if form < 0.4:
        return data[:at] + data[at + rng.randint(1, 4):]
    if form < 0.5:
        return data[:at] + bytes([rng.choice(BYTES)]) + data[at:]
    words = data.split(b" ")
    i = rng.randrange(len(words))
    if form < 0.7:
        words[i] = rng.choice(TOKENS)
    elif form < 0.8:
        words.insert(i, rng.choice(TOKENS))
    elif form < 0.9:
        del words[i]
    else:
        j = rng.randrange(len(words))
        words[i], words[j] = words[j], words[i]
    return b" ".join(words)


def random_clauses(rng):
    """Clauses of random references and classes, with cycles and wrong parts."""
    names = [b"1", b"2", b"3", b"a", b"b"]
    out = []
    for name in rng.sample(names, rng.randint(1, 5)):
        lead = b"object " + name + b" class "
        refs = [rng.choice(names) for _ in range(rng.randint(0, 3))]
        kind = rng.randrange(7)
        if kind == 0:
            out.append(lead + b"field " + b" ".join(b'component "%d" value %s' % (i, r) for i, r in enumerate(refs)))
        elif kind in (1, 2):
            word = rng.choice([b"group ", b"compositefield "])
            out.append(lead + word + b" ".join(b"member %d value %s" % (i, r) for i, r in enumerate(refs)))
        elif kind == 3:
            out.append(lead + b"series " + b" ".join(b"member %d position %d %s" % (i, rng.randint(-3, 3), r)
                                                     for i, r in enumerate(refs)))
        elif kind == 4:
            out.append(lead + b'string "s"')
        else:
            out.append(lead + random_head(rng))
        if rng.random() < 0.3:
            out.append(b'attribute "at" value ' + rng.choice(names))
    out.append(rng.choice([b"", b"end", b"default " + rng.choice(names), b"default 9"]))
    return rng.choice([b"\n", b" "]).join(out)


def random_head(rng):
    """The rest of an array's clause, with numbers at the limits."""
    elem = rng.randrange(6)
    items = rng.choice([0, 1, 2, 3, 16777216, 16777217, 524288, 524289])
    low, high = TYPE_RANGE[elem]
    edge = rng.choice([low, high, low - 1, high + 1, 0, 1])
    kind = rng.randrange(5)
    head = b"type " + TYPE_NAMES[elem]
    if kind == 0:
        few = min(items, 3)
        rank = rng.choice([b"", b" rank 0", b" rank 1 shape 1", b" rank 2 shape 1 1"])
        return b"array " + head + rank + b" items %d data follows " % few + b" ".join([b"%d" % edge] * few)
    if kind == 1:
        rank = rng.choice([(b"", 1), (b" rank 1 shape 2", 2), (b" rank 2 shape 16 16", 256)])
        return (b"constantarray " + head + rank[0] + b" items %d data follows " % items +
                b" ".join([b"%d" % edge] * rank[1]))
    if kind == 2:
        return (b"regulararray " + head + b" items %d origin %d delta %d" %
                (items, rng.choice([edge, 0, 5]), rng.choice([0, 1, -1, 2147483647, -2147483648, 128])))
    counts = [rng.choice([1, 2, 3, 4096, 4097, 256, 5000, 4294967295]) for _ in range(rng.randint(1, 3))]
    words = b" ".join(b"%d" % c for c in counts)
    if kind == 3:
        return b"gridconnections counts " + words
    n = len(counts)
    line = [b" ".join(b"%d" % rng.choice([0, 1, -1, 524288, 2147483647]) for _ in range(n)) for _ in range(n + 1)]
    return b"gridpositions counts " + words + b" origin " + line[0] + b"".join(b" delta " + d for d in line[1:])


def random_file(rng):
    """A native file, valid or damaged, and the name to ask for or None."""
    form = rng.random()
    if form < 0.25:
        data = random_clauses(rng)
    else:
        data = native_text(rng)
        if form < 0.9:
            data = damage(rng, data)
    return data, rng.choice([None] * 8 + [b"1", b"f", b"g", b"none"])




EACH = b' "#,\n0-.a9\\\xff5x'
SAMPLES = HEADS + GROUPS + [
    FIELD + b"end\n",
    b"object 1 class array category real\nobject 2",
    b'object 1 class array type signed short category real rank 2 shape 2 1 items 2 msb ieee data follows\n'
    b'\x00\x01\x80\x00\x7f\xff\x00\x00 attribute "a" value b object b class string "" default b end',
    b"object 1 class constantarray type uint items 4 data follows 4294967295 object 2 class regulararray type "
    b"signed byte rank 1 shape 2 items 3 origin -128 0 delta 127 -1 object 3 class gridpositions counts 2 1 3 origin "
    b"1 2 3 delta 1 0 0 delta 0 1 0 delta 0 0 1 object 4 class gridconnections counts 2 3 attribute \"x\" number 3\n",
    b'object s class series member 0 position 2147483647 value a member 1 position -2147483648 "a" '
    b'attribute "file" file object file class string "f" object a class group member "x" s2 member 1 value "s2" '
    b'object s2 class compositefield default s']


def count_of_damage(sample):
    """How many prefixes and changed bytes a sample has."""
    return (len(sample) + 1) + len(sample) * len(EACH)


ALL_DAMAGE = sum(count_of_damage(sample) for sample in SAMPLES)


def damaged_sample(i):
    """Damage number i, below ALL_DAMAGE: each prefix of each sample, and each place with each of the bytes."""
    for sample in SAMPLES:
        if i < count_of_damage(sample):
            break
        i -= count_of_damage(sample)
    if i <= len(sample):
        return sample[:i]
    at, which = divmod(i - len(sample) - 1, len(EACH))
    return sample[:at] + EACH[which:which + 1] + sample[at + 1:]
