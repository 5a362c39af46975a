#!/usr/bin/env python3
"""The listing program of document 01, by the model: hexadecimal lines in, answers out."""

import sys

from model import read_header

HEADING = "answer place records end\n"
LONGEST = 16384
DIGITS = set(b"0123456789abcdefABCDEF")


def answer(line):
    if len(line) > LONGEST:
        return "long\n"
    if len(line) % 2 or not DIGITS.issuperset(line):
        return "hex\n"
    file = bytes.fromhex(line.decode())
    return "%d %d %d %d\n" % read_header(file, len(file))[:4]


def lines(stdin):
    """A final line end closes a line and opens none."""
    parts = stdin.split(b"\n")
    return parts if parts[-1] else parts[:-1]


def listing(stdin):
    return HEADING + "".join(map(answer, lines(stdin)))


if __name__ == "__main__":
    sys.stdout.write(listing(sys.stdin.buffer.read()))
