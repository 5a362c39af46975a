#!/usr/bin/env python3
"""The marked examples of document 01, and each refusal of a read and of the writer, asked of the model."""

import unittest

import model
from cases import EMPTY, x
from encode import file, tables
from listing import listing
from model import OPEN, Attr, Dim, Tables, Var, header_bytes, read_element, read_header, read_record, read_var, write_header


def header(data, size=None, **more):
    return read_header(data, len(data) if size is None else size, **more)[:4]


class Marked(unittest.TestCase):
    def test_headers(self):
        self.assertEqual(header(EMPTY), (0, 0, 0, 32))
        self.assertEqual(header(EMPTY[:31]), (2, 31, 0, 0))
        self.assertEqual(header(EMPTY[:31], 32), (1, 31, 0, 0))
        self.assertEqual(header(b"CX"), (3, 0, 0, 0))
        self.assertEqual(header(b"CD"), (2, 2, 0, 0))
        self.assertEqual(header(b"CDF\x03"), (4, 3, 0, 0))
        self.assertEqual(header(b"CDF\x01\x80\0\0\0"), (5, 4, 0, 0))
        self.assertEqual(len(x()), 80)
        self.assertEqual(header(x(), 92), (0, 0, 3, 80))
        self.assertEqual(header(x(), 80), (0, 0, 0, 80))
        self.assertEqual(header(x(), 93)[0], 13)
        self.assertEqual(header(x(begin=84), 80)[0], 14)
        self.assertEqual(header(x()[:22] + b"\x01" + x()[23:]), (7, 21, 0, 0))
        self.assertEqual(header(EMPTY[:11] + b"\x0a" + EMPTY[12:])[0], 0)

    def test_size_and_versions(self):
        self.assertEqual(header(EMPTY, 31)[0], 21)
        self.assertEqual(header(EMPTY, 2**62)[0], 0)
        self.assertEqual(header(EMPTY, 2**62 + 1)[0], 21)
        self.assertEqual(header(EMPTY, admitted=(2,)), (4, 3, 0, 0))
        self.assertEqual(header(EMPTY, admitted=()), (4, 3, 0, 0))

    def test_listing(self):
        lines = [EMPTY.hex(), "4358", "43444603"]
        printed = "answer place records end\n0 0 0 32\n3 0 0 0\n4 3 0 0\n"
        self.assertEqual(listing("\n".join(lines).encode()), printed)
        self.assertEqual(listing(b""), "answer place records end\n")
        self.assertEqual(listing(b"\n"), "answer place records end\n2 0 0 0\n")


class Reads(unittest.TestCase):
    def setUp(self):
        self.file = x(data=bytes.fromhex("00000001fffffffe00000003"))
        self.tables = read_header(self.file, 92)[4]

    def test_values(self):
        self.assertEqual(read_element(self.tables, self.file, 0, 0, 1, 0), (0, [b"\xff\xff\xff\xfe"]))
        self.assertEqual(read_record(self.tables, self.file[84:88], 84, 0, 1, 1, 4), (0, [b"\xff\xff\xff\xfe"]))
        self.assertEqual(len(read_var(self.tables, self.file[80:], 80, 0, 3)[1]), 3)

    def test_refusals_in_order(self):
        t, file = self.tables, self.file
        self.assertEqual(read_element(t, b"", 0, 1, 9, 9, 1)[0], 16)
        self.assertEqual(read_element(t, b"", 0, 0, 9, 9, 1)[0], 17)
        self.assertEqual(read_element(t, b"", 0, 0, 3, 9, 4)[0], 18)
        self.assertEqual(read_element(t, b"", 0, 0, 2, 1, 4)[0], 19)
        self.assertEqual(read_element(t, file[:91], 0, 0, 2, 0, 4)[0], 20)
        self.assertEqual(read_var(t, file[81:], 81, 0, 0)[0], 20)
        self.assertEqual(read_var(t, file, 0, 0, 2)[0], 22)
        self.assertEqual(read_record(t, file, 0, 0, 0, 0)[0], 22)
        t.vars[0].begin = -1
        self.assertEqual(read_element(t, file, 0, 7, 0, 0)[0], 23)

    def test_fixed_and_empty(self):
        data = file([(b"t", 0)], [(b"f", [], 4, 112), (b"r", [0], 4, 116)]) + b"\0\0\0\x0a"
        t = read_header(data, len(data))[4]
        self.assertEqual(read_record(t, data, 0, 0, 0, 1), (0, [b"\0\0\0\x0a"]))
        self.assertEqual(read_record(t, data, 0, 0, 1, 1)[0], 18)
        self.assertEqual(read_var(t, b"", 0, 1, 0), (0, []))

    def test_order_of_the_rules(self):
        far = file([(b"t", 0)], [(b"a", [0], 4, 4000), (b"z", [], 4, 2**62)], word=OPEN, version=2)
        self.assertEqual(header(far)[0], 14)
        self.assertEqual(header(far, 4002)[0], 13)
        self.assertEqual(header(far, 4004)[0], 15)
        self.assertEqual(model.read_header(far, 4004)[4], model.Tables())


OUTPUT = b"\xee" * 9000  # before a header is written into it


def fixed(**more):
    """Every list filled, no unlimited dimension: the count is 0, whatever the word."""
    globals, own = [(b"g", 6, bytes(8)), (b"h", 1, b"\xff")], [(b"u", 2, b"K"), (b"w", 3, b"\0\1")]
    t = tables([(b"a", 3), (b"b", 2)], [(b"f", [0, 1], 4, 300, own), (b"g", [], 1, 400)], globals, **more)
    t.size = 5000
    return t


def moving(word=OPEN, count=2, size=216):
    """Two record variables, whose records have 8 bytes from 200 on, and a fixed one."""
    t = tables([(b"t", 0), (b"a", 3)], [(b"x", [0, 1], 2, 200), (b"y", [0], 4, 204), (b"f", [1], 4, 180)], word=word)
    t.count, t.size = count, size
    return t


def wide(*ids):
    """Records of 2^60 bytes, of which there are none, and a second variable."""
    dims = [(b"t", 0), (b"p", 2**30), (b"q", 2**30)]
    t = tables(dims, [(b"v", [0, 1, 2], 1, 0), (b"w", ids, 1, 0)], version=2)
    t.size = 500
    return t


def changed(t, path, value):
    """The tables with another value where the path leads, as in `vars.0.begin`."""
    row, (*steps, last) = t, path.split(".")
    for step in steps:
        row = row[int(step)] if step.isdigit() else getattr(row, step)
    setattr(row, last, value)
    return t


class Writer(unittest.TestCase):
    def limit(self, make, path, right, *wrong):
        """The tables can be written with one value, and not with the others."""
        with self.subTest(path=path, right=str(right)[:60]):
            self.assertEqual(write_header(changed(make(), path, right), OUTPUT)[0], 0)
        for value in wrong:
            with self.subTest(path=path, wrong=str(value)[:60]):
                self.assertEqual(write_header(changed(make(), path, value), OUTPUT), (23, 0, OUTPUT))

    def test_bytes_given_back(self):
        for data in (EMPTY, x(), x(version=2, begin=84), header_bytes(fixed()), header_bytes(fixed(version=2))):
            t = read_header(data, 500)[4]
            self.assertEqual(write_header(t, OUTPUT), (0, len(data), data + OUTPUT[len(data) :]))

    def test_tag_cleared(self):
        t = read_header(EMPTY[:11] + b"\x0a" + EMPTY[12:], 32)[4]
        self.assertEqual(write_header(t, OUTPUT[:32]), (0, 32, EMPTY))

    def test_room(self):
        t, head = fixed(), header_bytes(fixed())
        self.assertEqual(write_header(t, OUTPUT[: len(head)]), (0, len(head), head))
        self.assertEqual(write_header(t, OUTPUT[: len(head) - 1]), (22, 0, OUTPUT[: len(head) - 1]))
        self.assertEqual(write_header(t, OUTPUT[: len(head) + 3]), (0, len(head), head + b"\xee\xee\xee"))
        self.assertEqual(write_header(changed(t, "version", 3), b""), (23, 0, b""))

    def test_words(self):
        self.limit(fixed, "version", 2, 0, 3)
        self.limit(fixed, "word", 2**31 - 1, -1, 2**31, OPEN - 1, OPEN + 1)
        self.limit(fixed, "word", OPEN)
        self.limit(fixed, "dims.0.length", 2**31 - 1, -1, 2**31)
        self.limit(fixed, "vars.0.ids", [0, 0], [-1, 0])
        self.limit(fixed, "vars.0.vsize", 2**31 - 1, -1, 2**31, OPEN - 1, OPEN + 1)
        self.limit(fixed, "vars.0.vsize", OPEN)
        self.limit(fixed, "vars.0.begin", 0, -1)
        self.limit(fixed, "vars.0.begin", 2**31 - 1, 2**31)
        self.limit(lambda: fixed(version=2), "vars.0.begin", 2**31, 2**63)

    def test_types_and_values(self):
        for path in ("attrs.0.type", "vars.0.attrs.0.type", "vars.0.type"):
            self.limit(fixed, path, 1, 0, 7)
        self.limit(fixed, "attrs.0.values", b"", bytes(7), bytes(9))

    def test_capacities(self):
        def many(n, make):
            return [make(b"n%d" % i) for i in range(n)]

        def dim(name):
            return Dim(name, 1)

        def attr(name):
            return Attr(name, 1, b"")

        def var(name):
            return Var(name, [], [], 1, 4, 0)

        def none():
            return Tables(size=2**20)

        self.limit(none, "dims", many(32, dim), many(33, dim))
        self.limit(none, "vars", many(64, var), many(65, var))
        self.limit(none, "attrs", many(128, attr), many(129, attr))
        self.limit(fixed, "vars.1.attrs", many(124, attr), many(125, attr))
        self.limit(fixed, "vars.0.ids", [0] * 8, [0] * 9)

    def test_names(self):
        for path in ("dims.0.name", "attrs.0.name", "vars.0.name", "vars.0.attrs.0.name"):
            self.limit(fixed, path, b"n" * 256, b"n" * 257)
            self.limit(fixed, path, "é".encode(), b"\xff", b"a\xc2")
            self.limit(fixed, path, b"n", b"")
        for path, twice in (("dims.0.name", b"b"), ("attrs.0.name", b"h"), ("vars.0.name", b"g"), ("vars.0.attrs.0.name", b"w")):
            self.limit(fixed, path, b"n", twice)

    def test_dimensions(self):
        self.limit(moving, "dims.1.length", 1, 0)
        self.limit(fixed, "vars.0.ids", [1, 1], [2], [0, 2])
        self.limit(moving, "vars.2.ids", [1, 1], [1, 0])

    def test_sizes_and_ends(self):
        self.limit(wide, "vars.0.begin", 2**62, 2**62 + 1)
        self.limit(lambda: wide(1, 2), "vars.1.type", 1, 3)
        self.limit(wide, "vars.1.ids", [1, 2], [0])
        self.limit(wide, "vars.1.begin", 2**62 - 4, 2**62 - 3)

    def test_count_and_size(self):
        self.limit(moving, "count", 2, 1, 3)
        self.limit(lambda: moving(word=7, count=7), "count", 7, 0, 2)
        self.limit(fixed, "count", 0, 1)
        self.limit(lambda: fixed(word=7), "count", 0, 7)
        self.limit(moving, "size", 216, 215, 217, 224)
        self.limit(lambda: moving(count=0), "size", 200, 199, 192)
        self.limit(fixed, "size", 212, 211)
        self.limit(lambda: fixed(version=2), "size", 220, 219)
        self.limit(fixed, "size", 2**62, 2**62 + 1)


class Conversions(unittest.TestCase):
    def answer(self, data, size, version, out=OUTPUT):
        return model.convert(data, size, version, out)

    def test_marked(self):
        wide = x(begin=84, version=2)
        self.assertEqual(self.answer(x(), 92, 2), (0, 0, 84, 96, wide + OUTPUT[84:]))
        self.assertEqual(self.answer(wide, 96, 1), (0, 0, 80, 92, x() + OUTPUT[80:]))
        near, far = (x(begin, version=2, count=0) for begin in (2147483651, 2147483652))
        self.assertEqual(self.answer(near, 84, 1), (0, 0, 80, 80, x(2147483647, count=0) + OUTPUT[80:]))
        self.assertEqual(self.answer(far, 84, 1), (25, 0, 0, 0, OUTPUT))

    def test_same_version(self):
        tagged = EMPTY[:11] + b"\x0a" + EMPTY[12:]
        self.assertEqual(self.answer(tagged, 40, 1), (0, 0, 32, 40, EMPTY + OUTPUT[32:]))
        self.assertEqual(self.answer(x(), 92, 1), (0, 0, 80, 92, x() + OUTPUT[80:]))

    def test_refusals_in_order(self):
        self.assertEqual(self.answer(x()[:22] + b"\x01" + x()[23:], 80, 2)[:2], (7, 21))
        for version in (1, 2):
            self.assertEqual(self.answer(x(begin=76), 76, version)[0], 21)
            self.assertEqual(self.answer(x(begin=76), 80, version)[0], 24)
        self.assertEqual(self.answer(x(), 2**62 - 4, 2)[0], 0)
        self.assertEqual(self.answer(x(count=0), 2**62 - 3, 2)[0], 21)
        end = file([], [(b"f", [], 4, 2**62 - 8)], version=2)
        self.assertEqual(self.answer(end, 500, 2)[0], 0)
        self.assertEqual(self.answer(x(), 92, 2, OUTPUT[:83]), (22, 0, 0, 0, OUTPUT[:83]))


if __name__ == "__main__":
    unittest.main()
