"""The table of functions: named parameters, how many further arguments, how many results."""

MODULES = {
    b"Import": (("name", "variable", "format", "start", "end", "delta"), 0, 1),
    b"Select": (("input", "which", "except"), 0, 1),
    b"Extract": (("input", "name"), 0, 1),
    b"Replace": (("srcfield", "dstfield", "srcname", "dstname"), 0, 1),
    b"Mark": (("input", "name"), 0, 1),
    b"Unmark": (("input", "name"), 0, 1),
    b"Slab": (("input", "dimension", "position", "thickness"), 0, 1),
    b"Compute": (("expression",), 20, 1),
    b"Statistics": (("data",), 0, 5),
    b"Histogram": (("data", "bins", "min", "max", "out"), 0, 2),
    b"Collect": (("object",), 63, 1),
    b"CollectNamed": (("object", "name"), 62, 1),
    b"CollectSeries": (("object", "position"), 62, 1),
    b"Inquire": (("input", "inquiry", "value"), 0, 1),
}
EFFECTS = {
    b"Print": (("object", "options", "component"), 0, 0),
    b"Echo": (("string",), 63, 0),
    b"Export": (("object", "name", "format"), 0, 0),
    b"SetLocal": (("object", "link"), 0, 1),
    b"SetGlobal": (("object", "link"), 0, 1),
}
CONTROLS = {
    b"Switch": (("selector", "input"), 62, 1),
    b"Route": (("selector", "input"), 0, 64),
    b"GetLocal": (("initial", "link"), 0, 2),
    b"GetGlobal": (("initial", "link"), 0, 2),
}
FUNCTIONS = {name: (tuple(p.encode() for p in params), more, results)
             for table in (MODULES, EFFECTS, CONTROLS) for name, (params, more, results) in table.items()}
