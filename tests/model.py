"""Document 01 as a program: what the header reader, the reads, the header writer, widening and narrowing must answer, in exact arithmetic."""

from dataclasses import dataclass, field, replace

DIMS, VARS, ATTRS, IDS, NAME = 32, 64, 128, 8, 256  # capacities
OPEN = 0xFFFFFFFF
SIZES = {1: 1, 2: 1, 3: 2, 4: 4, 5: 4, 6: 8}
FAR, WIDE = 2**62, 2**60


def place():
    """Where something stands in the header; equal tables may differ in it."""
    return field(default=0, compare=False)


@dataclass
class Dim:
    name: bytes
    length: int
    at: int = place()  # the name's first byte


@dataclass
class Attr:
    name: bytes
    type: int
    values: bytes
    at: int = place()  # the name's first byte
    values_at: int = place()


@dataclass
class Var:
    name: bytes
    ids: list
    attrs: list
    type: int
    vsize: int
    begin: int
    at: int = place()  # the name's first byte


@dataclass
class Tables:
    version: int = 1
    word: int = 0
    count: int = 0
    size: int = 0
    dims: list = field(default_factory=list)
    attrs: list = field(default_factory=list)
    vars: list = field(default_factory=list)


class Refused(Exception):
    """A number and a place; for an unfinished header also how many bytes were wanted there."""

    def __init__(self, number, place=0, wanted=0):
        self.number, self.place, self.wanted = number, place, wanted


def is_utf8(text):
    try:
        text.decode("utf-8")
    except UnicodeDecodeError:
        return False
    return True


# ---- the grammar, from left to right ----


class Cursor:
    def __init__(self, prefix, size):
        self.prefix, self.size, self.at, self.attrs = prefix, size, 0, 0

    def unfinished(self, wanted):
        number = 1 if len(self.prefix) < self.size else 2
        return Refused(number, len(self.prefix), wanted)

    def take(self, n):
        if self.at + n > len(self.prefix):
            raise self.unfinished(n)
        self.at += n
        return self.prefix[self.at - n : self.at]

    def word(self, most=None, open=False):
        start = self.at
        value = int.from_bytes(self.take(4), "big")
        if value > 2**31 - 1 and not (open and value == OPEN):
            raise Refused(5, start)
        if most is not None and value > most:
            raise Refused(10, start)
        return value

    def magic(self):
        if not b"CDF".startswith(self.prefix[:3]):
            raise Refused(3, 0)
        self.take(3)

    def version(self, admitted):
        version = self.take(1)[0]
        if version not in admitted:
            raise Refused(4, 3)
        return version

    def padding(self, n):
        start = self.at
        if any(self.take((4 - n % 4) % 4)):
            raise Refused(7, start)

    def name(self):
        n = self.word(NAME)
        start = self.at
        name = self.take(n)
        if not is_utf8(name):
            raise Refused(6, start)
        self.padding(n)
        return name

    def type(self):
        start = self.at
        code = self.word()
        if code not in SIZES:
            raise Refused(8, start)
        return code

    def items(self, tag, most, item):
        start = self.at
        first = self.prefix[start : start + 8]
        if bytes(8).startswith(first):
            self.take(8)
            return []
        if first[:4] != bytes([0, 0, 0, tag]):
            raise Refused(9, start)
        self.take(4)
        return [item() for _ in range(self.word(most))]

    def dim(self):
        at = self.at + 4
        return Dim(self.name(), self.word(), at)

    def attr(self):
        at = self.at + 4
        name, code, n = self.name(), self.type(), self.word()
        values_at = self.at
        values = self.take(n * SIZES[code])
        self.padding(len(values))
        return Attr(name, code, values, at, values_at)

    def attr_list(self):
        """The capacity counts the attributes of all lists before."""

        def counted():
            self.attrs += 1
            return self.attr()

        return self.items(0x0C, ATTRS - self.attrs, counted)

    def var(self, version):
        at = self.at + 4
        name = self.name()
        ids = [self.word() for _ in range(self.word(IDS))]
        attrs, code, vsize = self.attr_list(), self.type(), self.word(open=True)
        begin = int.from_bytes(self.take(4 if version == 1 else 8), "big", signed=True)
        return Var(name, ids, attrs, code, vsize, begin, at)

    def header(self, admitted):
        self.magic()
        version = self.version(admitted)
        word = self.word(open=True)
        dims = self.items(0x0A, DIMS, self.dim)
        attrs = self.attr_list()
        vars = self.items(0x0B, VARS, lambda: self.var(version))
        return Tables(version, word, 0, self.size, dims, attrs, vars)


# ---- the rules over the whole ----


def distinct(rows):
    names = [row.name for row in rows]
    return b"" not in names and len(set(names)) == len(names)


def only_first(t):
    """The unlimited dimension stands only first in a variable."""
    return all(t.dims[i].length > 0 for var in t.vars for i in var.ids[1:])


def model_rules(t):
    lists = [t.dims, t.attrs, t.vars] + [var.attrs for var in t.vars]
    return (
        all(distinct(rows) for rows in lists)
        and sum(dim.length == 0 for dim in t.dims) <= 1
        and all(i < len(t.dims) for var in t.vars for i in var.ids)
        and only_first(t)
    )


def is_record(t, var):
    return bool(var.ids) and t.dims[var.ids[0]].length == 0


def chunk(t, var):
    n = 1
    for i in var.ids[is_record(t, var) :]:
        n *= t.dims[i].length
    return n


def padded(t, var):
    n = chunk(t, var) * SIZES[var.type]
    return n + (4 - n % 4) % 4


def record_size(t):
    return sum(padded(t, var) for var in t.vars if is_record(t, var))


def rule12(t):
    near = all(0 <= var.begin <= FAR and padded(t, var) <= WIDE for var in t.vars)
    return near and record_size(t) <= WIDE


def end(t, var):
    if not is_record(t, var):
        return var.begin + padded(t, var)
    if t.count == 0:
        return var.begin
    return var.begin + (t.count - 1) * record_size(t) + padded(t, var)


def rule15(t):
    return all(end(t, var) <= FAR for var in t.vars)


def record_count(t):
    if all(dim.length for dim in t.dims):
        return 0
    if t.word != OPEN:
        return t.word
    begins = [var.begin for var in t.vars if is_record(t, var)]
    if not begins:
        return 0
    if t.size < min(begins):
        raise Refused(14)
    count, rest = divmod(t.size - min(begins), record_size(t))
    if rest:
        raise Refused(13)
    return count


def parse(prefix, size, admitted=(1, 2)):
    """The tables and the header's end, or Refused."""
    if len(prefix) > size or size > FAR:
        raise Refused(21)
    cursor = Cursor(prefix, size)
    t = cursor.header(admitted)
    if not model_rules(t):
        raise Refused(11)
    if not rule12(t):
        raise Refused(12)
    t.count = record_count(t)
    if not rule15(t):
        raise Refused(15)
    return t, cursor.at


def read_header(prefix, size, admitted=(1, 2)):
    """number, place, count, end, tables"""
    try:
        t, at = parse(prefix, size, admitted)
        return 0, 0, t.count, at, t
    except Refused as no:
        return no.number, no.place, 0, 0, Tables()


# ---- reads: (number, values), values as a list of big-endian bytes or None ----


def in_order(t):
    """23, by the list of document 01."""
    return (
        len(t.dims) <= DIMS
        and len(t.vars) <= VARS
        and all(len(var.ids) <= IDS and var.type in SIZES for var in t.vars)
        and all(i < len(t.dims) for var in t.vars for i in var.ids)
        and only_first(t)
        and rule12(t)
        and rule15(t)
    )


def records(t, var):
    return t.count if is_record(t, var) else 1


def choose(t, number, asked):
    if not in_order(t):
        raise Refused(23)
    if number >= len(t.vars):
        raise Refused(16)
    if asked not in (None, t.vars[number].type):
        raise Refused(17)
    return t.vars[number]


def values(window, start, at, n, size):
    """n values from file position at, out of a window that starts at file position start."""
    if at < start or at + n * size > start + len(window):
        raise Refused(20)
    return [window[at - start + i * size :][:size] for i in range(n)]


def answered(read):
    def call(*args, **more):
        try:
            return 0, read(*args, **more)
        except Refused as no:
            return no.number, None

    return call


@answered
def read_element(t, window, start, number, record, element, asked=None):
    var = choose(t, number, asked)
    if record >= records(t, var):
        raise Refused(18)
    if element >= chunk(t, var):
        raise Refused(19)
    size = SIZES[var.type]
    return values(window, start, var.begin + record * record_size(t) + element * size, 1, size)


@answered
def read_record(t, window, start, number, record, room, asked=None):
    var = choose(t, number, asked)
    if record >= records(t, var):
        raise Refused(18)
    got = values(window, start, var.begin + record * record_size(t), chunk(t, var), SIZES[var.type])
    if chunk(t, var) > room:
        raise Refused(22)
    return got


@answered
def read_var(t, window, start, number, room, asked=None):
    var = choose(t, number, asked)
    n, got = chunk(t, var), []
    for record in range(records(t, var)):
        got += values(window, start, var.begin + record * record_size(t), n, SIZES[var.type])
    if records(t, var) * n > room:
        raise Refused(22)
    return got


# ---- lookup: the names are parts of the buffer ----


def names(t, buffer):
    if len(t.vars) > VARS or any(var.at + len(var.name) > len(buffer) for var in t.vars):
        raise Refused(23)
    return [buffer[var.at :][: len(var.name)] for var in t.vars]


@answered
def var_name(t, buffer, number):
    found = names(t, buffer)
    if number >= len(found):
        raise Refused(16)
    return found[number]


@answered
def find_var(t, buffer, name):
    found = names(t, buffer)
    if name not in found:
        raise Refused(16)
    return found.index(name)


# ---- the header's bytes: every empty list as eight zero bytes ----


def spelled(n, width=4):
    """Big-endian. What has no form in so many bytes wraps: the writer refuses it before, hand-made files want it."""
    return (n % 256**width).to_bytes(width, "big")


def padded_out(data):
    return data + bytes(-len(data) % 4)


def name_bytes(name):
    return spelled(len(name)) + padded_out(name)


def list_bytes(tag, items):
    """items: the bytes of each"""
    return spelled(tag) + spelled(len(items)) + b"".join(items) if items else bytes(8)


def dim_bytes(dim):
    return name_bytes(dim.name) + spelled(dim.length)


def elements(attr):
    """How many values an attribute has; bytes where its code is no type's."""
    return len(attr.values) // SIZES.get(attr.type, 1)


def attr_bytes(attr):
    return name_bytes(attr.name) + spelled(attr.type) + spelled(elements(attr)) + padded_out(attr.values)


def var_bytes(var, version):
    ids = spelled(len(var.ids)) + b"".join(map(spelled, var.ids))
    attrs = list_bytes(0x0C, list(map(attr_bytes, var.attrs)))
    begin = spelled(var.begin, 4 if version == 1 else 8)
    return name_bytes(var.name) + ids + attrs + spelled(var.type) + spelled(var.vsize) + begin


def header_bytes(t):
    return (
        b"CDF" + bytes([t.version]) + spelled(t.word)
        + list_bytes(0x0A, list(map(dim_bytes, t.dims)))
        + list_bytes(0x0C, list(map(attr_bytes, t.attrs)))
        + list_bytes(0x0B, [var_bytes(var, t.version) for var in t.vars])
    )


# ---- the writer ----


def is_word(n):
    return 0 <= n < 2**31


def is_open_word(n):
    return is_word(n) or n == OPEN


def all_attrs(t):
    return t.attrs + [attr for var in t.vars for attr in var.attrs]


def fits(t):
    """The capacities."""
    return (
        len(t.dims) <= DIMS
        and len(t.vars) <= VARS
        and len(all_attrs(t)) <= ATTRS
        and all(len(var.ids) <= IDS for var in t.vars)
        and all(len(row.name) <= NAME for row in t.dims + all_attrs(t) + t.vars)
    )


def in_range(t):
    """Each number has a form in the tables' version, each name is UTF-8."""
    beyond = 2**31 if t.version == 1 else 2**63
    return (
        t.version in (1, 2)
        and is_open_word(t.word)
        and all(is_word(dim.length) for dim in t.dims)
        and all(attr.type in SIZES and is_word(elements(attr)) for attr in all_attrs(t))
        and all(len(attr.values) == elements(attr) * SIZES[attr.type] for attr in all_attrs(t))
        and all(is_word(i) for var in t.vars for i in var.ids)
        and all(var.type in SIZES and is_open_word(var.vsize) and 0 <= var.begin < beyond for var in t.vars)
        and all(is_utf8(row.name) for row in t.dims + all_attrs(t) + t.vars)
    )


def count_holds(t):
    """The count is what the reader would answer; where it would answer 13 or 14, no count holds."""
    try:
        return t.count == record_count(t)
    except Refused:
        return False


def writable(t):
    """All that the writer tests, each part where those before it hold."""
    # "inside the text buffer" has no counterpart: these tables hold the bytes of names and values, not where they stand
    return (
        fits(t)
        and in_range(t)
        and model_rules(t)
        and rule12(t)
        and count_holds(t)
        and rule15(t)
        and len(header_bytes(t)) <= t.size <= FAR
    )


def write_header(t, out):
    """number, the header's length, and the output as it then stands"""
    if not writable(t):
        return 23, 0, out
    head = header_bytes(t)
    if len(head) > len(out):
        return 22, 0, out
    return 0, len(head), head + out[len(head) :]


# ---- widening and narrowing: version 2 and version 1 ----


def in_version(t, version, move=0):
    """The tables in another version, begins and size moved."""
    vars = [replace(var, begin=var.begin + move) for var in t.vars]
    return replace(t, version=version, size=t.size + move, vars=vars)


def convert(prefix, size, version, out):
    """number, place, the new header's length, the new size, and the output as it then stands"""
    try:
        t, end = parse(prefix, size)
        new = in_version(t, version, len(header_bytes(in_version(t, version))) - end)
        if any(var.begin < end for var in t.vars):
            raise Refused(24)
        if version == 1 and any(var.begin >= 2**31 for var in new.vars):
            raise Refused(25)
        if new.size > FAR:
            raise Refused(21)
        if not rule15(new):
            raise Refused(15)
        head = header_bytes(new)
        if len(head) > len(out):
            raise Refused(22)
        return 0, 0, len(head), new.size, head + out[len(head) :]
    except Refused as no:
        return no.number, no.place, 0, 0, out
