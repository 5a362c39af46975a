#!/usr/bin/env python3
"""Writes crates/leaves/stdin, recorded inputs of the words of the format, and crates/leaves/stdout, the answers that
document 01 asks for. With --check it writes nothing and fails where the two files differ from what it would write.

Nothing here is taken from the program: the answers follow the words of document 01 (Answer numbers, Header grammar,
Capacities), and a name is UTF-8 where Python's own decoder takes it.

An input is a letter, a space and bytes in hexadecimal. The answers for it are the line itself and then, for each cut of
the bytes, `number place value`: the refusal's number and place and 0, or 0, the place after the word and the value. The
size is that of all the bytes of the line.
"""
import os
import sys

LIMIT = 2147483647
INDETERMINATE = 0xFFFFFFFF


class Refusal(Exception):
    """A refusal's number and place."""


class Prefix:
    """The first bytes of a file of `size` bytes."""

    def __init__(self, data, size):
        self.data, self.size = data, size

    def unfinished(self):
        raise Refusal(1 if len(self.data) < self.size else 2, len(self.data))

    def take(self, at, count):
        if len(self.data) < at + count:
            self.unfinished()
        return self.data[at : at + count]


def number(f, at, width=4):
    return int.from_bytes(f.take(at, width), "big")


def non_negative(f, at):
    v = number(f, at)
    if v > LIMIT:
        raise Refusal(5, at)
    return v, at + 4


def open_count(f, at):
    v = number(f, at)
    if v > LIMIT and v != INDETERMINATE:
        raise Refusal(5, at)
    return v, at + 4


def count(f, at, capacity):
    v, after = non_negative(f, at)
    if v > capacity:
        raise Refusal(10, at)
    return v, after


def begin(f, version):
    width = {1: 4, 2: 8}[version]
    signed = int.from_bytes(f.take(0, width), "big", signed=True)
    return signed % 2**64, width


def magic_and_version(f, admitted):
    if not b"CDF".startswith(f.data[:3]):
        raise Refusal(3, 0)
    f.take(0, 3)
    v = f.take(3, 1)[0]
    if v not in admitted:
        raise Refusal(4, 3)
    return v, 4


def list_start(f, tag, room):
    absent, tagged = bytes(8), bytes([0, 0, 0, tag])
    if absent.startswith(f.data[:8]):
        f.take(0, 8)
        return 0, 8
    if tagged.startswith(f.data[:4]):
        return count(f, 4, room)
    raise Refusal(9, 0)


def padding(f, at, n):
    width = (4 - n % 4) % 4
    if f.take(at, width) != bytes(width):
        raise Refusal(7, at)
    return at + width


def name(f):
    n, at = count(f, 0, 256)
    text = f.take(at, n)
    try:
        text.decode("utf-8", "strict")
    except UnicodeDecodeError:
        raise Refusal(6, at) from None
    return n, padding(f, at + n, n)


def data_type(f):
    code, after = non_negative(f, 0)
    if not 1 <= code <= 6:
        raise Refusal(8, 0)
    return code, after


def values(f):
    n = f.data[0] * f.data[1]
    f.take(2, n)
    return 0, padding(f, 2 + n, n)


LEAVES = {
    "w": lambda f: non_negative(f, 0),
    "o": lambda f: open_count(f, 0),
    "b": lambda f: begin(f, 1),
    "B": lambda f: begin(f, 2),
    "m": lambda f: magic_and_version(f, {1, 2}),
    "c": lambda f: magic_and_version(f, {1}),
    "d": lambda f: magic_and_version(f, {2}),
    "e": lambda f: magic_and_version(f, set()),
    "l": lambda f: list_start(f, 0x0A, 32),
    "n": name,
    "t": data_type,
    "v": values,
    "p": lambda f: (0, padding(f, 1, f.data[0])),
}

# bytes that come before the first cut: the count of `p`, the count and the width of `v`
FIXED = {"p": 1, "v": 2}


def answers(letter, data):
    for cut in range(FIXED.get(letter, 0), len(data) + 1):
        try:
            value, place = LEAVES[letter](Prefix(data[:cut], len(data)))
            yield 0, place, value
        except Refusal as r:
            yield *r.args, 0


def word(v, width=4):
    return v.to_bytes(width, "big")


def padded(data):
    return data + bytes((4 - len(data) % 4) % 4)


def a_name(text):
    return word(len(text)) + padded(text)


def utf8_names():
    """Sequences around every boundary of Unicode's table of well-formed sequences."""
    edges = (0x7F, 0x80, 0x8F, 0x90, 0x9F, 0xA0, 0xBF, 0xC0)
    outer = (0x7F, 0x80, 0xBF, 0xC0)
    for first in range(0x100):
        yield bytes([first])
        if first < 0x80:
            yield bytes([first, 0x80])
            continue
        if first < 0xE0:
            for second in outer:
                yield bytes([first, second])
            continue
        # a second byte that the table allows after this first one, not at an end of its row
        inner = {0xE0: 0xA5, 0xF4: 0x85}.get(first, 0x95)
        yield bytes([first, inner])
        if first < 0xF0:
            for second in edges:
                yield bytes([first, second, 0x80])
            for third in outer:
                yield bytes([first, inner, third])
            continue
        yield bytes([first, inner, 0x80])
        for second in edges:
            yield bytes([first, second, 0x80, 0x80])
        for last in outer:
            yield bytes([first, inner, last, 0x80])
            yield bytes([first, inner, 0x80, last])


# well-formed sequences, those that are cut short, overlong ones, surrogates, those above 10FFFF
MARKED = (
    "c280 dfbf e0a080 e0bfbf e18080 ecbfbf ed8080 ed9fbf ee8080 efbfbf efbbbf f0908080 f0bfbfbf f1808080 f3bfbfbf f4808080 f48fbfbf "
    "c2 e0 e0a0 e180 ed80 ef f0 f090 f09080 f18080 f4 f480 f48080 "
    "c080 c1bf e08080 e09fbf f0808080 f08fbfbf "
    "eda080 edadbf edb080 edbfbf "
    "f4908080 f4bfbfbf f5808080 f7bfbfbf f8888080 fe ff"
)


def inputs():
    words = [0, 1, 0x01020304, 0x00010000, 0x7FFFFFFE, LIMIT, 2**31, 2**31 + 1, 2**32 - 2, INDETERMINATE, 0x80FFFFFF, 0xFF7FFFFF]
    for letter in "wob":
        for v in words:
            yield letter, word(v)
        for cut in ("", "00", "80", "ffff", "7fffff", "ffffff", "800000"):
            yield letter, bytes.fromhex(cut)
        yield letter, word(LIMIT) + b"\xff"
        yield letter, word(INDETERMINATE) + b"\x00"
    longs = [0, 1, 0x0102030405060708, LIMIT, 2**31, 2**32 - 1, 2**32, 2**62 - 1, 2**62, 2**62 + 1, 2**63 - 1, 2**63, 2**64 - 2, 2**64 - 1]
    for v in longs:
        yield "B", word(v, 8)
    for cut in ("", "00", "80", "ffffffff", "ffffffffffffff"):
        yield "B", bytes.fromhex(cut)
    yield "B", word(2**62, 8) + b"\x01"

    for letter in "mcde":
        for version in (0, 1, 2, 3, 4, 5, 0x80, 0xFF):
            yield letter, b"CDF" + bytes([version])
        for start in (b"", b"C", b"CD", b"CDF", b"X", b"CX", b"CDX", b"CDG", b"DDF", b"CEF", b"CDFX", b"cdf\1", b"CXF\1", b"XDF\1", b"CDX\1", b"\0CDF", b"CDF\1\0"):
            yield letter, start

    tag = word(0x0A)
    yield "l", bytes(8)
    yield "l", bytes(8) + b"\1"
    for cut in range(8):
        yield "l", bytes(cut)
    for odd in range(8):
        for value in (0x01, 0x0A, 0x80):
            yield "l", bytes(odd) + bytes([value]) + bytes(7 - odd)
            yield "l", bytes(odd) + bytes([value])
    for v in (0, 1, 31, 32, 33, 256, LIMIT, 2**31, INDETERMINATE):
        yield "l", tag + word(v)
        yield "l", tag + word(v) + b"\xff"
    for cut in ("", "00", "80", "ffffff", "000000"):
        yield "l", tag + bytes.fromhex(cut)
    for v in (0x09, 0x0B, 0x0C, 0x0D, 0x10A, 0x0A0A, 0x0A000000, 2**31 + 0x0A):
        yield "l", word(v) + word(1)

    for text in utf8_names():
        yield "n", a_name(text)
    for text in map(bytes.fromhex, MARKED.split()):
        yield "n", a_name(b"a" + text)
        yield "n", a_name(text + b"a")
        yield "n", a_name(text + text)
        yield "n", a_name("\u00e9\u20ac".encode() + text + "\U0001f30d".encode())
    # the padding goes on with a sequence that the name cuts short
    yield "n", word(1) + b"\xc2\x80\0\0"
    yield "n", word(2) + b"\xe1\x80\x80\0"
    yield "n", word(3) + b"\xf1\x80\x80\x80"
    for n in (0, 1, 2, 3, 4, 5, 8, 255, 256, 257):
        text = (b"name_0123456789" * 18)[:n]
        yield "n", a_name(text)
        yield "n", a_name(text) + b"\xff"
        yield "n", a_name(text)[:-1]
        yield "n", word(n) + text[:-1]
        width = (4 - n % 4) % 4
        for odd in range(width):
            for value in (0x01, 0x80):
                wrong = bytes(odd) + bytes([value]) + bytes(width - odd - 1)
                yield "n", word(n) + text + wrong
                yield "n", word(n) + b"\xff" + text[1:] + wrong
        if width:
            yield "n", word(n) + text + b"\1"
    for text in ("\u00e9" * 128, "\u00e9" * 127 + "a", "\u20ac" * 85, "\U0001f30d" * 64, "\u00e9" * 129):
        yield "n", a_name(text.encode())
        yield "n", word(len(text.encode()) - 1) + text.encode()[:-1] + b"\0"
    for v in (257, 258, 65536, LIMIT, 2**31, INDETERMINATE):
        yield "n", word(v)
        yield "n", word(v) + b"abcd"
    for cut in ("", "00", "ff", "800000", "00000004", "0000000461", "00000004ff", "00000003ffff", "0000000361626300"):
        yield "n", bytes.fromhex(cut)

    for code in (0, 1, 2, 3, 4, 5, 6, 7, 8, 9, 11, 12, 256, 257, 0x01000000, LIMIT, 2**31, 2**31 + 1, INDETERMINATE):
        yield "t", word(code)
    for cut in ("", "00", "80", "000000", "ffffff"):
        yield "t", bytes.fromhex(cut)
    yield "t", word(6) + b"\xff"

    for n, width in ((0, 1), (0, 8), (1, 1), (2, 1), (3, 1), (4, 1), (5, 1), (1, 2), (2, 2), (3, 2), (1, 4), (3, 4), (1, 8), (3, 8), (255, 1), (127, 2)):
        head, data = bytes([n, width]), (b"\xff\x80\x00\x01" * 64)[: n * width]
        yield "v", head + padded(data)
        yield "v", head + padded(data) + b"\xff"
        yield "v", head + data[:-1]
        room = (4 - len(data) % 4) % 4
        for odd in range(room):
            yield "v", head + data + bytes(odd) + b"\x01" + bytes(room - odd - 1)
            yield "v", head + data + bytes(odd) + b"\x01"

    for n in (0, 1, 2, 3, 4, 5, 6, 7, 8, 253, 254, 255):
        room = (4 - n % 4) % 4
        yield "p", bytes([n]) + bytes(room)
        yield "p", bytes([n]) + bytes(room) + b"\xff"
        if room:
            yield "p", bytes([n]) + bytes(room - 1)
        for odd in range(room):
            yield "p", bytes([n]) + bytes(odd) + b"\x80" + bytes(room - odd - 1)
            yield "p", bytes([n]) + bytes(odd) + b"\x80"


def main():
    recorded, cuts, seen = [], 0, set()
    expected = []
    for letter, data in inputs():
        line = f"{letter} {data.hex()}"
        if line in seen:
            continue
        seen.add(line)
        recorded.append(line)
        expected.append(line)
        for a in answers(letter, data):
            expected.append("%d %d %d" % a)
            cuts += 1
    folder = os.path.join(os.path.dirname(os.path.abspath(__file__)), "..", "crates", "leaves")
    files = {"stdin": "\n".join(recorded) + "\n", "stdout": "\n".join(expected) + "\n"}
    differ = []
    for file, text in files.items():
        path = os.path.join(folder, file)
        if sys.argv[1:] == ["--check"]:
            try:
                with open(path, encoding="ascii", newline="") as f:
                    if f.read() != text:
                        differ.append(file)
            except FileNotFoundError:
                differ.append(file)
        else:
            with open(path, "w", encoding="ascii", newline="") as f:
                f.write(text)
    print(f"{len(recorded)} lines, {cuts} cuts")
    if differ:
        sys.exit(f"leaves: {' and '.join(differ)} differ from what document 01 asks for")


main()
