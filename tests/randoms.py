"""Random files: whole ones with data, ones with a fault of a kind, and damaged copies."""

from encode import header
from model import OPEN, SIZES, Attr, Dim, Tables, Var, is_record, padded, record_size

FIRST = "abcdefghijklmnopqrstuvwxyzABCDEFGHIJKLMNOPQRSTUVWXYZ"
REST = FIRST + "0123456789_"
ODD = ["_a", "é", "a-b", "9a", "a b", "a/b", "\u00ff\u20ac", "\U0001f600", "+", "a\x00", "\ufeff"]


def name(rng, taken):
    """A new name, mostly of letters, digits and underscores."""
    while True:
        text = rng.choice(FIRST) + "".join(rng.choice(REST) for _ in range(rng.choice((0, 0, 1, 2, 3, 4, 7))))
        if rng.random() < 0.01:
            text = rng.choice(ODD)
        if text not in taken:
            taken.add(text)
            return text.encode()


def attributes(rng, most):
    taken = set()
    rows = []
    for _ in range(rng.choice((0, 0, 1, rng.randint(0, most)))):
        code = rng.randint(1, 6)
        rows.append(Attr(name(rng, taken), code, rng.randbytes(SIZES[code] * rng.choice((0, 1, 1, 2, 3, 5)))))
    return rows


def tables(rng):
    """Dimensions, attributes and variables of a file, begins still 0."""
    taken = set()
    dims = [Dim(name(rng, taken), rng.randint(1, 5)) for _ in range(rng.randint(0, 4))]
    if rng.random() < 0.7:
        dims.insert(rng.randint(0, len(dims)), Dim(name(rng, taken), 0))
    fixed = [i for i, dim in enumerate(dims) if dim.length]
    unlimited = [i for i, dim in enumerate(dims) if not dim.length]
    taken = set()
    rows = []
    for _ in range(rng.choice((0, 1, 1, 2, 3, 5))):
        ids = rng.sample(fixed, rng.randint(0, min(3, len(fixed))))
        if rng.random() < 0.05 and ids:
            ids.append(ids[0])
        if unlimited and rng.random() < 0.6:
            ids.insert(0, unlimited[0])
        code = rng.randint(1, 6)
        vsize = rng.choice((4, 4, 0, OPEN, rng.randrange(2**31)))
        rows.append(Var(name(rng, taken), ids, attributes(rng, 3), code, vsize, 0))
    return Tables(rng.choice((1, 2)), 0, 0, 0, dims, attributes(rng, 4), rows)


def lay_out(rng, t):
    """Begins one after the other, the fixed variables first, sometimes with gaps or in another order; the data's length."""
    at = len(header(t)) + rng.choice((0, 0, 0, 4, 10))
    count = rng.choice((0, 1, 2, 3, 3, 5, 20))
    order = list(t.vars)
    if rng.random() < 0.2:
        rng.shuffle(order)
    for var in order:
        if not is_record(t, var):
            var.begin = at
            at += padded(t, var)
    for var in order:
        if is_record(t, var):
            var.begin = at
            at += padded(t, var)
    step = record_size(t)
    has = any(not dim.length for dim in t.dims)
    t.word = rng.choice((count, count, OPEN)) if has else rng.choice((0, 0, 7, OPEN))
    return at + (count - 1) * step if step else at


def whole(rng, t=None):
    """A file with all its data; now and then some bytes more or fewer."""
    t = t or tables(rng)
    size = lay_out(rng, t)
    head = header(t)
    size += rng.choice((0,) * 8 + (-1, 1, -4, 4, rng.randint(-20, 20)))
    return head + rng.randbytes(max(0, size - len(head)))


# ---- faults of a kind ----


def twice(rng, t):
    rows = rng.choice([rows for rows in (t.dims, t.attrs, t.vars, *[var.attrs for var in t.vars]) if len(rows) > 1] or [[]])
    if rows:
        first, second = rng.sample(range(len(rows)), 2)
        rows[first].name = rows[second].name


def nameless(rng, t):
    rows = t.dims + t.attrs + t.vars
    if rows:
        rng.choice(rows).name = b""


def unlimited(rng, t):
    if t.dims:
        rng.choice(t.dims).length = 0


def ids(rng, t):
    if t.vars:
        rng.choice(t.vars).ids.append(rng.choice((0, 1, len(t.dims), 31, 32, 2**31 - 1)))


def begins(rng, t):
    for var in t.vars:
        if rng.random() < 0.6:
            var.begin = rng.choice((-1, -8, 0, 2**31 - 1, rng.randrange(2**12)))
            if t.version == 2:
                var.begin = rng.choice((var.begin, 2**62, 2**62 - 4, 2**62 - 8, 2**62 + 1, 2**63 - 1, -(2**63)))


def lengths(rng, t):
    for dim in t.dims:
        if dim.length and rng.random() < 0.7:
            dim.length = rng.choice((2**31 - 1, 2**30, 2**29, 2**20, 2**16, 3, 2147483644, 2147483645))


def count(rng, t):
    t.word = rng.choice((OPEN, 2**31 - 1, 2**30 + 1, 2**28, 2**31, 1))


def many(rng, t):
    kind = rng.randrange(4)
    if kind == 0:
        t.dims += [Dim(b"more%d" % i, 1) for i in range(rng.randint(26, 34))]
    if kind == 1:
        t.vars += [Var(b"more%d" % i, [], [], 1, 4, 0) for i in range(rng.randint(58, 66))]
    if kind == 2:
        t.attrs += [Attr(b"more%d" % i, 1, b"") for i in range(rng.randint(120, 130))]
    if kind == 3 and t.vars and t.dims:
        rng.choice(t.vars).ids += [rng.randrange(len(t.dims)) for _ in range(rng.randint(4, 9))]


def long(rng, t):
    rows = t.dims + t.attrs + t.vars
    if rows:
        rng.choice(rows).name = b"n" * rng.choice((254, 255, 256, 257, 300))


def bad_text(rng, t):
    rows = t.dims + t.attrs + t.vars
    if rows:
        rng.choice(rows).name = rng.choice((b"\x80", b"a\xc2", b"\xed\xa0\x80", b"\xf5abc", b"ok\xff", b"\xe2\x82\xac"))


def code(rng, t):
    rows = t.attrs + t.vars
    if rows:
        rng.choice(rows).type = rng.choice((0, 7, 8, 255, 2**31 - 1, 2**31))


LATE = (begins, lengths, count)
FAULTS = (twice, nameless, unlimited, ids, many, long, bad_text, code)


def faulty(rng):
    """A file with one fault or two."""
    t = tables(rng)
    size = lay_out(rng, t)
    for fault in rng.sample(FAULTS + LATE * 3, rng.choice((1, 1, 2))):
        fault(rng, t)
    head = header(t)
    return head + rng.randbytes(max(0, min(size, 2000) - len(head)))


def damaged(rng, file):
    """Bytes changed, cut off, taken out or put in."""
    file = bytearray(file)
    for _ in range(rng.choice((1, 1, 1, 2, 3))):
        at = rng.randrange(len(file)) if file else 0
        kind = rng.randrange(10)
        if kind < 6 and file:
            file[at] = rng.choice((0, 1, 2, 4, 0x0A, 0x0B, 0x0C, 0x7F, 0x80, 0xFF, rng.randrange(256), file[at] ^ 1 << rng.randrange(8)))
        elif kind < 8:
            del file[at:]
        elif kind == 8:
            del file[at : at + rng.choice((1, 4))]
        else:
            file[at:at] = rng.randbytes(rng.choice((1, 4)))
    return bytes(file)
