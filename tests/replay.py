#!/usr/bin/env python3
"""Writes crates/replay/stdin, recorded files with reads of all their values, lookups of all their variables and probes
of each refusal, and crates/replay/stdout, what the model answers. With --check it writes nothing and fails where the two
files differ from what it would write.

The lines are those that crates/replay/src/main.rt and tables.rt name. Values that a file was made of are compared here
with what the model reads, so that the answers do not rest on the model alone.
"""
import math
import os
import struct
import sys

import encode
import model
import rows
from cases import EMPTY, cases
from model import OPEN, SIZES

NAMES = {1: "byte", 2: "char", 3: "short", 4: "int", 5: "float", 6: "double"}
# zeros, ones, both ends of the range; of floats both infinities, the smallest and NaNs with a payload of either sign
PATTERNS = {
    1: "01 80 ff 7f 00 2a",
    2: "41 ff 00 80 7f 0a",
    3: "0001 8000 ffff 7fff 0000 1234 fffe",
    4: "00000001 80000000 ffffffff 7fffffff 00000000 fffffffe 01020304",
    5: "3f800000 7fa00001 ffc12345 80000000 7f800000 ff800000 00000001 807fffff c0490fdb 7fc00000",
    6: "3ff0000000000000 7ff0000000000001 fff8123456789abc 8000000000000000 7ff0000000000000 fff0000000000000 0000000000000001 c00921fb54442d18",
}
# how a code of an output's read shows: the type read, the value of an element that is not written
CODES = {1: (1, "99"), 2: (2, "99"), 3: (3, "99"), 4: (4, "99"), 5: (5, f"{99:08x}"), 6: (6, f"{99:016x}"), 7: (5, "3f800000"), 8: (6, "3ff0000000000000")}
GAP = b"\xee"  # what stands between values: a read that takes it for one shows
KEPT, ROOM = b"\x99", 8192  # what an output holds before a header is written; the longest one


def is_nan(data):
    return math.isnan(struct.unpack(">f" if len(data) == 4 else ">d", data)[0])


def shown(code, data):
    """A value as an output shows it."""
    if code in (1, 3, 4):
        return str(int.from_bytes(data, "big", signed=True))
    if code == 2:
        return str(data[0])
    return "nan" if code > 6 and is_nan(data) else data.hex()


def element_text(code, data):
    more = " " + shown(code + 2, data) if code > 4 else ""
    return f"{NAMES[code]} {shown(code, data)}{more}"


# ---- files with values ----


def made(dims, vars, records=0, word=None, version=1, cut=0, late=0):
    """A file of variables (name, ids, type), and the values of each variable and record. `late` bytes stand between the
    header and the values, `cut` bytes are missing at the end."""
    t = encode.tables(dims, [(*row, 0) for row in vars], word=records if word is None else word, version=version)
    start, data, values = len(encode.header(t)), bytearray(GAP * late), {}

    def put(i, record):
        patterns, n = PATTERNS[t.vars[i].type].split(), model.chunk(t, t.vars[i])
        first = len(vars) + 3 * version + i + record * n
        values[i, record] = [bytes.fromhex(patterns[(first + k) % len(patterns)]) for k in range(n)]
        chunk = b"".join(values[i, record])
        data.extend(chunk + GAP * (-len(chunk) % 4))

    moving = [i for i, var in enumerate(t.vars) if model.is_record(t, var)]
    for i, var in enumerate(t.vars):
        if i not in moving:
            var.begin = start + len(data)
            put(i, 0)
    for record in range(max(records, 1)):
        for i in moving:
            if record == 0:
                t.vars[i].begin = start + len(data)
            if record < records:
                put(i, record)
    whole = encode.header(t) + bytes(data)
    return whole[: len(whole) - cut], values


T, A, B = (b"t", 0), (b"a", 5), (b"b", 3)


def files():
    dims = [A, T, B]
    for code in SIZES:
        other = code % 6 + 1
        for version in (1, 2):
            yield made(dims, [(b"s", [], code), (b"v", [0], code), (b"m", [2, 0], code)], version=version)
            yield made([T], [(b"x", [0], code)], 3, version=version)
        yield made(dims, [(b"r", [1, 2], code), (b"f", [0], other), (b"q", [1], other)], 3, version=code % 2 + 1)
        yield made(dims, [(b"q", [1], other), (b"r", [1, 0], code)], 2, word=OPEN, version=other % 2 + 1)
        yield made(dims, [(b"r", [1, 2], code)], 0, word=OPEN if code % 2 else 0)
    all_types = [(NAMES[code].encode(), [], code) for code in SIZES]
    moving = [(NAMES[code].encode(), [1], code) for code in SIZES]
    for version in (1, 2):
        yield made([], all_types, version=version)
        yield made([A, T], moving, 3, version=version)
    eight = [(b"d%d" % i, 2 if i in (1, 6) else 1) for i in range(8)]
    yield made(eight, [(b"v", range(8), 3), (b"w", [1, 6, 1], 1)])
    yield made([T, *eight[1:]], [(b"v", range(8), 6)], 2, version=2)
    # values far behind the header, and values that the file is too short for
    yield made(dims, [(b"r", [1, 2], 3), (b"f", [0], 6)], 2, late=41)
    yield made(dims, [(b"f", [0], 4), (b"r", [1, 2], 4)], 3, cut=2)
    yield made(dims, [(b"f", [0], 2)], cut=8)


def refused_files():
    yield from (EMPTY[:31], b"CX", b"CDF\x03")
    yield encode.file([T, T], [(b"x", [0], 4, 80)], word=1) + bytes(4)
    yield encode.file([T], [(b"x", [0], 4, 80)], word=OPEN) + bytes(3)


# ---- headers ----


def rich(version, word=OPEN):
    """Every list, every type, ids, an open vsize, names of one to five bytes, attributes with no values; the file is the header alone."""
    values = {1: b"\x80\x7f", 2: b"text\xff", 3: b"\x12\x34", 4: bytes(12), 5: b"\x7f\xa0\0\1", 6: bytes(range(16))}
    globals = [(b"g" + bytes([96 + code]) * (code - 1), code, values[code]) for code in SIZES]
    dims = [(b"t", 0), (b"lat", 3), ("é".encode(), 2147483647), (b"abcde", 4)]
    own = [(b"u", 2, b""), (b"units", 2, b"K"), (b"v", 6, values[6])]
    vars = [(b"x", [0], 4, 400), (b"yy", [0, 1, 3], 3, 404, own), (b"zzz", [3, 3], 6, 2**31 - 1), (b"w", [], 2, 1, own[:1]), (b"long", [2], 1, 500)]
    t = encode.tables(dims, vars, globals, word=word, version=version)
    t.vars[1].vsize, t.vars[2].vsize = OPEN, 0
    return encode.header(t)


def full():
    """Tables without a free row: 32 dimensions, 128 attributes, 64 variables of 8 dimensions each."""
    dims = [(b"d%d" % i, i + 1) for i in range(model.DIMS)]
    attrs = [(b"a%d" % i, i % 6 + 1, b"") for i in range(model.VARS)]
    vars = [(b"v%d" % i, [i % 3] * model.IDS, i % 6 + 1, 2**40 + i, [(b"o", 2, b"x")]) for i in range(model.VARS)]
    return encode.file(dims, vars, attrs, version=2)


SETS = ((), (1,), (2,), (1, 2))
# at and around the limits of words, of 32-bit machines, of rule 12 and of sizes
LIMITS = sorted({n + d for n in (2**31, 2**32, 2**53, 2**60, 2**62) for d in (-1, 0, 1)} | {4294967372, 4294967388, 8589934684})


def all_headers(play):
    """Every set of versions, every prefix at two sizes, sizes from below the prefix up to 2^62 + 1."""
    for data in (EMPTY, rich(1), rich(2, 7), rich(1, 0), full(), encode.file([T], [(b"x", [0], 4, 80)], word=OPEN)):
        play.file(data)
        for admitted in SETS:
            play.header(admitted, len(data), len(data))
            play.header(admitted, 3, len(data))
        cuts = range(len(data) + 1) if len(data) < 600 else range(0, len(data), 97)
        for n in cuts:
            play.header((1, 2), n, n)
            play.header((1, 2), n, len(data) + 12)
        for size in (0, len(data) - 1, *range(len(data), len(data) + 14), *LIMITS):
            play.header((1, 2), len(data), size)
    for version in (0, 3, 5, 0x31, 0xFF):
        play.file(EMPTY[:3] + bytes([version]) + EMPTY[4:])
        for admitted in SETS:
            play.header(admitted, len(EMPTY), len(EMPTY))
    # open counts whose numbers pass 32 and 53 bits, and begins and ends at 2^62
    for begin in (0, 80, 2**32 - 4, 2**32, 2**62 - 4, 2**62, 2**62 + 1, 2**63):
        for dims, ids in (([T], [0]), ([T, (b"n", 2**31 - 1)], [0, 1])):
            play.file(encode.file(dims, [(b"x", ids, 4, begin)], word=OPEN, version=2))
            for size in (len(play.data), *LIMITS, begin + 2**33 - 4, begin + 2**33, begin + 8):
                if size < 10**19:
                    play.header((1, 2), len(play.data), size)
    for word in (1, 2**31 - 1):
        play.file(encode.file([T, (b"n", 2**30)], [(b"x", [0, 1], 1, 2**61)], word=word, version=2))
    # one in eight of the hand-made files: each refusal of a header, and tables of every shape
    for data in list(cases())[::8]:
        if len(data) <= 400:
            play.file(data)
            play.answers[play.number] = play.answers.get(play.number, 0) + 1


# ---- the program by the model ----


def row_text(*numbers):
    return " ".join(map(str, numbers))


def header_text(number, place, end, t):
    """All that the header reader answers; a 0 after each list says that the rows past its count are zero."""
    attrs = model.all_attrs(t)
    parts = [row_text(number, place, end, t.version, t.word, t.count, t.size)]
    parts += [row_text(len(t.dims)), *(row_text(dim.at, len(dim.name), dim.length) for dim in t.dims), "0"]
    parts += [row_text(len(attrs), len(t.attrs))]
    parts += [*(row_text(a.at, len(a.name), a.type, len(a.values) // SIZES[a.type], a.values_at) for a in attrs), "0"]
    parts += [row_text(len(t.vars))]
    for var, first in zip(t.vars, rows.first_attrs(t)):
        ids = [*var.ids, *[0] * model.IDS][: model.IDS]
        parts += [row_text(var.at, len(var.name), len(var.ids), *ids, first, len(var.attrs), var.type, var.vsize, var.begin % 2**64)]
    return " ".join([*parts, "0"])


class Replay:
    """The lines so far, and their answers."""

    def __init__(self):
        self.recorded, self.expected, self.refusals, self.answers, self.written, self.converted = [], [], {}, {}, {}, {}
        self.files = self.headers = self.values = self.outputs = self.lookups = 0

    def line(self, kind, *rest):
        """Numbers have at most 19 digits."""
        self.recorded.append(" ".join([kind, *map(str, rest)]))

    def file(self, data):
        """Whether its header is accepted."""
        number, place, records, end, self.first = model.read_header(data, len(data))
        self.numbers = rows.numbers_of(self.first)
        self.data, self.window, self.start, self.tables = data, (0, len(data)), 0, self.first
        self.line("f", data.hex())
        self.expected.append(header_text(number, place, end, self.first))
        self.files += 1
        self.number = number
        return number == 0

    def header(self, admitted, length, size):
        """The header again: of the file's first bytes, at another size, for a reader that admits a set of versions."""
        self.line("h", sum(admitted), length, size)
        number, place, records, end, t = model.read_header(self.data[:length], size, admitted)
        self.expected.append(header_text(number, place, end, t))
        self.headers += 1
        self.answers[number] = self.answers.get(number, 0) + 1

    def change(self, *key):
        """The number of the tables that the letter and the row before it name."""
        self.line(*key)
        *name, value = key
        self.numbers[tuple(name) if name[1:] else name[0]] = value
        self.tables = rows.tables_of(self.numbers, self.first, self.data)

    def number_of(self, *key):
        return self.numbers.get(key if key[1:] else key[0], 0)

    def look(self, start, stop):
        """The window from here on."""
        self.line("w", start, stop)
        self.window, self.start = (start, stop), start

    def tell(self, start):
        """Where the reads are told that the window starts."""
        self.line("s", start)
        self.start = start

    def counted(self, number):
        if number:
            self.refusals[number] = self.refusals.get(number, 0) + 1

    def asked(self, read, *args, **more):
        start, stop = self.window
        number, values = read(self.tables, self.data[start:stop], self.start, *args, **more)
        self.counted(number)
        return number, values

    def name(self, var):
        self.line("m", var)
        number, name = model.var_name(self.tables, self.data, var)
        self.counted(number)
        self.lookups += 1
        self.expected.append(" ".join(map(str, [number, *(name or b"")])))
        return name

    def find(self, start, stop):
        """The variable that these bytes of the file name; the empty part where they do not lie inside."""
        self.line("q", start, stop)
        part = self.data[start:stop] if stop <= len(self.data) else b""
        number, found = model.find_var(self.tables, self.data, part)
        self.counted(number)
        self.lookups += 1
        self.expected.append(f"refused {number}" if number else f"at {found}")
        return found

    def element(self, var, record, element, code=None):
        self.line("t" if code else "e", var, record, element, *[code] if code else [])
        number, values = self.asked(model.read_element, var, record, element, asked=code)
        self.values += number == 0
        self.expected.append(f"refused {number}" if number else element_text(self.tables.vars[var].type, values[0]))
        return values and values[0]

    def output(self, var, record, code, room):
        """A record, or all of them where `record` is None."""
        whole = record is None
        self.line("a" if whole else "r", var, record or 0, code, room)
        type, kept = CODES[code]
        read, args = (model.read_var, []) if whole else (model.read_record, [record])
        number, values = self.asked(read, var, *args, room, asked=type)
        texts = [shown(code, value) for value in values or []]
        self.outputs += 1
        self.expected.append(" ".join([str(number), *texts, *[kept] * (room - len(texts))]))
        return values


    def writes(self, room, length=None):
        """The tables' header, into an output of so many bytes; the file's first bytes are the text."""
        length = len(self.data) if length is None else length
        text, out = self.data[:length], KEPT * min(room, ROOM)
        self.line("x", room, length)
        number, n = 23, 0
        if rows.inside(self.numbers, text):
            number, n, out = model.write_header(rows.tables_of(self.numbers, self.first, text), out)
        self.expected.append(" ".join(map(str, [n, number, *out])))
        self.written[number] = self.written.get(number, 0) + 1
        return n

    def converts(self, version, room, length=None, size=None):
        """The file's first bytes, a file of that size, in the version."""
        length, size = (len(self.data) if n is None else n for n in (length, size))
        self.line(str(version), room, length, size)
        number, place, n, new, out = model.convert(self.data[:length], size, version, KEPT * min(room, ROOM))
        self.expected.append(" ".join(map(str, [place, n, new, number, *out])))
        self.converted[number] = self.converted.get(number, 0) + 1
        return n


def codes(var):
    """The codes by which an output takes the variable."""
    return [var.type, var.type + 2] if var.type > 4 else [var.type]


def same(got, laid, data, *where):
    if got not in (None, laid):
        sys.exit(f"replay: the model reads {got} at {where} of {data.hex()}, made of {laid}")


def all_values(play, values):
    """Every value three ways: by elements, by records, all at once; and what lies one past each end."""
    t, data = play.tables, play.data
    for i, var in enumerate(t.vars):
        n, records = model.chunk(t, var), model.records(t, var)
        for r in range(records):
            for e in range(n):
                same(play.element(i, r, e), values[i, r][e], data, i, r, e)
            same(play.element(i, r, 0, var.type), values[i, r][0], data, i, r)
            for code in codes(var):
                same(play.output(i, r, code, n + r % 3), values[i, r], data, i, r)
        for code in codes(var):
            same(play.output(i, None, code, n * records + 2), sum((values[i, r] for r in range(records)), []), data, i)
        play.element(i, 0, n)
        play.element(i, records, 0)
    play.element(len(t.vars), 0, 0)


def all_names(play, laid):
    """Every variable by its number and by its name, what is no name, and one variable too many for the tables."""
    data = play.data
    places, at = [], 0
    for name in laid:
        at = data.index(encode.name(name), at) + 4
        places.append((at, at + len(name)))

    def ask():
        for i, (start, stop) in enumerate(places):
            yield i, play.name(i), play.find(start, stop)

    for i, name, found in ask():
        same(name, laid[i], data, "name", i)
        same(found, i, data, "number", i)
    play.name(len(laid))
    # the file's first bytes are no name; nor are a name with the byte after it, the empty part, and what lies outside
    for start, stop in ((0, 3), (places[0][0], places[0][1] + 1), (4, 4), (places[0][1], places[0][0]), (places[0][0], len(data) + 1), (2**63, 2**63 + 1)):
        play.find(start, stop)
    for n in (65, 2**63):
        play.change("v", n)
        list(ask())
        play.name(64)
    play.change("v", len(laid))


def moved_names(play):
    """Names that end with the file or behind it, names that two variables have, and rows without one."""
    t, size = play.tables, len(play.data)
    places = [(var.at, var.at + len(var.name)) for var in t.vars]

    def ask():
        for i in (*range(len(places) + 1), 63, 64, 2**63):
            play.name(i)
        for start, stop in (*places, (size - 1, size), (0, 0)):
            play.find(start, stop)

    for i, var in enumerate(t.vars):
        last = size - len(var.name)
        for at in (0, last, last + 1, size, size + 1, 2**63, *(at for at, _ in places)):
            play.change("p", i, at)
            ask()
        play.change("p", i, var.at)
    for n in (0, 1, len(t.vars) + 1, 64, 65):
        play.change("v", n)
        ask()
    # a name behind the file counts only in a row that is a variable's
    play.change("p", len(t.vars), size + 1)
    for n in (len(t.vars), len(t.vars) + 1):
        play.change("v", n)
        ask()


def told_starts(play):
    """The same windows, told to start elsewhere: other bytes of the file, or 20."""
    t, size = play.tables, len(play.data)
    for i, var in enumerate(t.vars):
        n, last = model.chunk(t, var), max(model.records(t, var), 1) - 1
        at = var.begin + last * model.record_size(t)
        for start, stop in ((0, size), (at, at + n * SIZES[var.type]), (at - 1, at + n * SIZES[var.type] + 1)):
            play.look(start, stop)
            near = (start + 1, start + 2, start, *([start - 1] if start else []))
            for told in (*near, 0, size, 2**32 + start, 2**62, 2**63 - 1, 2**63, 2**63 + start, 9999999999999999999):
                play.tell(told)
                for e in (0, n - 1):
                    play.element(i, last, e)
                play.output(i, last, var.type, n)
                play.output(i, None, var.type, n * (last + 1))
            play.look(start, stop)
            play.element(i, last, 0)
    # the largest positions that tables in order reach
    for begin in (2**62 - 64, 2**62):
        play.change("b", 0, begin)
        play.look(0, size)
        for told in (begin - 1, begin, begin + 1, begin - size, begin - size + 1):
            play.tell(told)
            play.element(0, 0, 0)
            play.output(0, 0, t.vars[0].type, model.chunk(t, t.vars[0]))
    # what is told last must not outlast the file
    play.change("b", 0, t.vars[0].begin)


def refusals(play):
    """16 to 20 and 22, alone and with a later one beside, which gives way."""
    t = play.tables
    for i, var in enumerate(t.vars):
        n, records, size, other = model.chunk(t, var), model.records(t, var), SIZES[var.type], var.type % 6 + 1
        play.element(i, 0, 0, other)
        play.element(i, records, n, other)
        play.output(i, 0, other, n)
        play.output(i, None, other, n)
        play.output(i, records, var.type, 0)
        play.output(i, 0, var.type, n - 1)
        play.output(i, None, var.type, max(n * records - 1, 0))
        play.element(i, 2**63, 2**63)
        play.element(i, 0, 2**63)
        last = max(records, 1) - 1
        at = var.begin + last * model.record_size(t)
        end = at + n * size
        for start, stop in ((at, end), (at + 1, end), (at, end - 1), (at + size, end), (at, at)):
            play.look(start, stop)
            play.element(i, last, 0)
            play.element(i, last, n - 1)
            play.element(i, last, n)
            play.output(i, last, var.type, n)
            play.output(i, last, var.type, 0)
            play.output(i, None, var.type, n * records)
        play.look(0, len(play.data))
    for none in (len(t.vars), 64, 2**63):
        play.element(none, 0, 0)
        play.element(none, 0, 0, 1)
        play.output(none, 0, 1, 2)
        play.output(none, None, 1, 2)


def changes(t):
    """Letter, row and number: tables out of order, by each part of rule 23, and some still in order."""
    for n in (0, 1, len(t.vars) + 1, 64, 65, 2**63):
        yield "v", n
    for n in (0, len(t.dims) - 1, len(t.dims) + 1, 32, 33, 2**63):
        yield "d", n
    for n in (0, 1, 2**40, 2**62, 2**63):
        yield "n", n
    for i in range(len(t.dims)):
        yield from (("l", i, n) for n in (0, 1, 2, 65535))
    for i in range(len(t.vars)):
        yield from (("c", i, n) for n in (0, 1, 4, 6, 7, 255))
        yield from (("k", i, n) for n in (0, 1, 2, 8, 9, 255))
        yield from (("i", i, n) for n in (0, 1, 2, len(t.dims), 31, 32, 65535))
        yield from (("b", i, n) for n in (0, 2, 2**62 - 2**20, 2**62, 2**62 + 1, 2**63, 2**63 + 2**59))


def out_of_order(play):
    """23, which comes before all others, and goes with the number that gave it."""
    for *name, value in list(changes(play.tables)):
        was = play.number_of(*name)
        play.change(*name, value)
        for i in (0, len(play.first.vars) - 1, 70):
            play.element(i, 0, 0)
        play.element(0, 1, 0, 4)
        play.output(0, 0, 4, 6)
        play.output(0, None, 4, 0)
        play.change(*name, was)


def small(version, word):
    """Every list filled, an unlimited dimension; text behind the header for names of 257 bytes."""
    dims, own = [(b"t", 0), (b"lat", 3)], [(b"u", 2, b"K"), (b"w", 6, bytes(8))]
    globals = [(b"g", 3, b"\0\1\0\2"), (b"hh", 2, b"abcde")]
    vars = [(b"x", [0, 1], 3, 300, own), (b"y", [1, 1], 6, 320)]
    return encode.file(dims, vars, globals, word=word, version=version).ljust(300, b"a") + b"b" * (4 * 8 + 256)


def headers_written(play):
    """What was read is written, with room to spare, just enough, a byte short and none, the text whole and cut; then one number of the tables is
    another."""
    tagged = bytearray(EMPTY)
    tagged[11], tagged[19], tagged[27] = 0x0A, 0x0C, 0x0B
    small_files = [small(1, 4), small(2, OPEN)]
    for data in (EMPTY, bytes(tagged), rich(1, 0), rich(2, 7), full(), *small_files, *refused_files()):
        play.file(data)
        end = play.writes(len(data) + 16)
        for room in {end, max(end - 1, 0), end // 2, 0}:
            play.writes(room)
        for length in {end - 1, end // 2, 12, 0} if end else ():
            play.writes(8, length)
    for data in small_files:
        play.file(data)
        end = play.writes(len(data))
        for name, value in list(rows.changes(play.numbers, data, end)):
            was = play.number_of(*name)
            play.change(*name, value)
            # a refusal for the tables comes before the one for room
            inside = rows.inside(play.numbers, data)
            play.writes(len(model.header_bytes(play.tables)) if inside and model.writable(play.tables) else 8)
            play.change(*name, was)
    for word in (0, 2**31 - 1):
        play.change("W", word)
        play.change("n", word)
        play.writes(400)


def files_converted(play):
    """Files of every shape in both versions, with room to spare, just enough and a byte short; begins, ends and sizes at their limits; files that are refused."""
    tagged = bytearray(EMPTY)
    tagged[11], tagged[19], tagged[27] = 0x0A, 0x0C, 0x0B
    late = [made([A, T, B], [(b"r", [1, 2], 4), (b"f", [0], 3), (b"q", [1], 6)], 2, version=v, late=12)[0] for v in (1, 2)]
    whole = [small(1, 4), small(2, OPEN), EMPTY, bytes(tagged), *late, *refused_files()]
    for data in whole:
        play.file(data)
        for version in (1, 2):
            n = play.converts(version, len(data) + 20)
            for room in {n, max(n - 1, 0), 0}:
                play.converts(version, room)
            for length in {n // 2, len(data) - 1, len(data)}:
                play.converts(version, 8, length, len(data) + 4)
            for size in (len(data) - 1, len(data), *LIMITS, 2**62 - 4, 2**62 - 3, 2**62 - 8):
                play.converts(version, 0, size=size)
    # a begin at the header's end and below; where a moved begin, a moved end and a moved size pass their limits
    for version, end in ((1, 80), (2, 84)):
        begins = [end - 4, end - 1, end, 2**31 - 1 - 4, 2**31 - 4, 2**31 - 1]
        begins += [2**31 + 3, 2**31 + 4, 2**32, 2**62 - 8, 2**62 - 4, 2**62 - 3, 2**62] if version == 2 else []
        for begin in begins:
            for word, dims, ids in ((0, [T], [0]), (0, [(b"n", 1)], [0]), (OPEN, [T], [0])):
                play.file(encode.file(dims, [(b"x", ids, 4, begin)], word=word, version=version))
                for size in (len(play.data), begin + 8, 2**62 - 4, 2**62):
                    for target in (1, 2):
                        play.converts(target, 84, size=size)


def values_converted(play):
    """Files with values in the other version, and back: the new header before the old bytes from the old header's end. Every value is what it was."""
    for data, values in files():
        for version in (2, 1):
            end = model.read_header(data, len(data))[3]
            play.file(data)
            n = play.converts(version, len(data) + 64)
            new = model.convert(data, len(data), version, bytes(len(data) + 64))[4][:n] + data[end:]
            if not play.file(new):
                sys.exit(f"replay: the model refuses {new.hex()}, made of {data.hex()}")
            all_values(play, values)
            data = new


def replay():
    play = Replay()
    all_headers(play)
    for data, values in files():
        if not play.file(data):
            sys.exit(f"replay: the model refuses {data.hex()}")
        all_values(play, values)
        all_names(play, [var.name for var in play.tables.vars])
    for data in refused_files():
        play.file(data)
        play.element(0, 0, 0)
        play.output(0, None, 4, 1)
        play.name(0)
        play.find(0, 1)
        play.find(0, 0)
    probed = [made([A, T, B], [(b"r", [1, 2], 4), (b"f", [0], 3), (b"q", [1], 6)], 2), made([B, T], [(b"c", [1, 0], 2)], 3, version=2), made([T], [(b"x", [0], 5)])]
    for data, _ in probed:
        play.file(data)
        refusals(play)
        told_starts(play)
        moved_names(play)
    for data, _ in (made([A, T, B], [(b"r", [1, 2], 4), (b"m", [2, 0], 4)], 2), made([A], [(b"f", [0], 4)], version=2)):
        play.file(data)
        out_of_order(play)
    headers_written(play)
    files_converted(play)
    values_converted(play)
    return play


def main():
    play = replay()
    folder = os.path.join(os.path.dirname(os.path.abspath(__file__)), "..", "crates", "replay")
    differ = []
    for file, lines in (("stdin", play.recorded), ("stdout", play.expected)):
        path, text = os.path.join(folder, file), "\n".join(lines) + "\n"
        if sys.argv[1:] == ["--check"]:
            try:
                with open(path, encoding="ascii", newline="") as f:
                    if f.read() != text:
                        differ.append(file)
            except FileNotFoundError:
                differ.append(file)
        else:
            with open(path, "w", encoding="ascii", newline="") as f:
                f.write(text)
    given = ", ".join(f"{number} {times} times" for number, times in sorted(play.refusals.items()))
    headers = ", ".join(f"{number} {times} times" for number, times in sorted(play.answers.items()))
    print(f"{play.files} files, {play.headers} headers more; answers: {headers}")
    print(f"{play.values} values by elements, {play.outputs} reads into outputs, {play.lookups} lookups; refusals: {given}")
    written = ", ".join(f"{number} {times} times" for number, times in sorted(play.written.items()))
    print(f"headers written: {written}")
    converted = ", ".join(f"{number} {times} times" for number, times in sorted(play.converted.items()))
    print(f"files widened and narrowed: {converted}")
    if differ:
        sys.exit(f"replay: {' and '.join(differ)} differ from what the model answers")


main()
