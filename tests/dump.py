"""An accepted file as the one line that oracle/README.md describes, by the model."""

from model import OPEN, is_record, read_record, read_var

RECORDS = 16


def bits(answer):
    number, values = answer
    return "-" if number else b"".join(values).hex()


def attr(row):
    return "%s:%d:%s" % (row.name.hex(), row.type, row.values.hex())


def reads(t, number, file):
    var = t.vars[number]
    limited = all(dim.length for dim in t.dims)
    records = min(t.count, RECORDS) if is_record(t, var) else int(limited)
    yield "whole=" + bits(read_var(t, file, 0, number, len(file)))
    for record in range(records):
        yield "record=" + bits(read_record(t, file, 0, number, record, len(file)))


def fields(t, file):
    yield from ("accepted", "records=%d" % t.count, "version=%d" % t.version)
    yield from ("dim=%s:%d" % (dim.name.hex(), dim.length) for dim in t.dims)
    yield from ("attr=" + attr(row) for row in t.attrs)
    for number, var in enumerate(t.vars):
        vsize = "open" if var.vsize == OPEN else var.vsize
        yield "var=%s:%s:%d:%s:%d" % (var.name.hex(), ",".join(map(str, var.ids)), var.type, vsize, var.begin)
        yield from ("vattr=" + attr(row) for row in var.attrs)
        if file is not None:
            yield from reads(t, number, file)


def dump(t, file=None):
    """Without the file's bytes, no values."""
    return " ".join(fields(t, file))
