"""Element types, limits, refusals, numbers and quoting: what all other parts of the evaluator use."""

import sys

sys.set_int_max_str_digits(0)

INT_MIN, INT_MAX = -2147483648, 2147483647
UINT_MAX = 4294967295

BYTE, UBYTE, SHORT, USHORT, INT, UINT = range(6)
TYPE_NAMES = (b"signed byte", b"unsigned byte", b"short", b"unsigned short", b"int", b"unsigned int")
TYPE_BYTES = (1, 1, 2, 2, 4, 4)
TYPE_RANGE = ((-128, 127), (0, 255), (-32768, 32767), (0, 65535), (INT_MIN, INT_MAX), (0, UINT_MAX))

MAX_ITEMS = 16777216
MAX_VALUES = 134217728
MAX_LEVELS = 64
MAX_OBJECTS = 1048576
MAX_SIZE = 268435456
MAX_CALLS = 65536
MAX_NESTING = 64
MAX_TERMS = 65536
MAX_STEPS = 65536
MAX_LOADED = 16777216
MAX_LEVEL_OF_INCLUDES = 16


class Refuse(Exception):
    """A module or an effect refuses; `code` is the code as it is printed."""

    def __init__(self, code):
        Exception.__init__(self, code)
        self.code = code


def quoted(text):
    """The bytes between double quotes, with the three escapes of the formats."""
    return b'"' + text.replace(b"\\", b"\\\\").replace(b'"', b'\\"').replace(b"\n", b"\\n") + b'"'


def decimal(number):
    """A number as decimal bytes."""
    return b"%d" % number


def closed_string(text, at):
    """Scans a string from its opening quote. Gives (bytes, end, bad): `bytes` None where it is never closed,
    `bad` the place of the first backslash that begins no escape, or None."""
    out = bytearray()
    bad = None
    i, n = at + 1, len(text)
    while i < n:
        c = text[i]
        if c == 34:
            return bytes(out), i + 1, bad
        if c == 10:
            return None, i, bad
        if c == 92:
            d = text[i + 1] if i + 1 < n else -1
            if d == 34 or d == 92:
                out.append(d)
            elif d == 110:
                out.append(10)
            else:
                if bad is None:
                    bad = i
                i += 1
                continue
            i += 2
            continue
        out.append(c)
        i += 1
    return None, n, bad
