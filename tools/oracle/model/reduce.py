"""Makes a case that differs smaller: fewer files, lines and bytes, as long as it differs."""

import time

LIMIT = 90.0


def cut_chunks(items, still, deadline):
    """The list with chunks taken out, halves first."""
    size = max(1, len(items) // 2)
    while True:
        i = 0
        while i < len(items) and time.time() < deadline:
            shorter = items[:i] + items[i + size:]
            if len(shorter) < len(items) and still(shorter):
                items = shorter
            else:
                i += size
        if size == 1 or time.time() > deadline:
            return items
        size = max(1, size // 2)


def smaller(words, files, differs):
    """Words and files that still differ."""
    deadline = time.time() + LIMIT
    files = dict(files)
    for word in list(words):
        shorter = [w for w in words if w is not word]
        if len(words) > 1 and differs(shorter, files):
            words = shorter
    for name in sorted(files):
        if name != b"s.net" and len(files) > 1:
            fewer = {n: d for n, d in files.items() if n != name}
            if differs(words, fewer):
                files = fewer
    for name in sorted(files, key=lambda n: n != b"s.net"):
        for mark in (b"\n", b";", b" ", None):
            data = files[name]
            pieces = [data[i:i + 1] for i in range(len(data))] if mark is None else data.split(mark)
            if mark is None and len(pieces) > 600:
                continue

            def joined(own, mark=mark):
                return (mark or b"").join(own)

            def still(own, name=name):
                return differs(words, {**files, name: joined(own)})

            files[name] = joined(cut_chunks(pieces, still, deadline))
    return words, files
