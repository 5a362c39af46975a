#!/usr/bin/env python3
"""The Rust crate's answers, on this computer and in a wasm32 guest, against those of the model and so against each other.

    answers.py [--cases N] [--sweep N] COMMAND..

Each COMMAND, one argument, runs the crate's program `answers`. Of N files of the corpus, of those that are accepted with a tag in each empty list, of hand-made headers at pretended sizes, of the recorded
files of crates/replay and of those that ncgen makes of tests/cdl/ in both versions every answer is compared: numbers and places, all fields and values of accepted files, the header written anew, widening and
narrowing. Of N headers of a sweep, whose sizes, begins and record sizes lie around 2^31, 2^32, 2^53, 2^60 and 2^62, number, place and all fields.
"""

import collections
import glob
import itertools
import os
import random
import re
import shlex
import subprocess
import sys
import tempfile

import encode
from cases import sized
from corpus import files
from differential import empty_lists, put
from dump import dump
from model import OPEN, Refused, convert, header_bytes, is_record, parse, read_header, record_size

HERE = os.path.dirname(os.path.abspath(__file__))
CASES, SWEEP, SHOWN = 8000, 100000, 5
READ = re.compile(" (?:whole|record)=([0-9a-f-]+)")
NEAR = [2**31, 2**32, 2**53, 2**60, 2**62]


def converted(name, file, size, version):
    room = bytes(len(file) + 4 * 64)
    number, place, length, new_size, out = convert(file, size, version, room)
    end = 0 if number else parse(file, size)[1]
    return "%s=%d:%d:%d:%d:%d:%s" % (name, number, place, length, new_size, end, out[:length].hex())


def expected(file, size, conversions):
    """The answer's number and the line that the program must print."""
    try:
        tables, _ = parse(file, size)
        number, fields = 0, [dump(tables, file if len(file) == size else None)]
        fields += ["written=" + header_bytes(tables).hex()] * conversions
    except Refused as no:
        number, fields = no.number, ["refused %d %d" % (no.number, no.place)]
    if conversions:
        fields += [converted("widen", file, size, 2), converted("narrow", file, size, 1)]
    return number, " ".join(fields)


def tagged(pairs):
    """Accepted files with a tag in each empty list, which writing clears."""
    return [(put(file, empty_lists(file, size)), size) for file, size in pairs if read_header(file, size)[0] == 0]


def recorded():
    """The files and the headers at other sizes that crates/replay reads."""
    path = os.path.join(HERE, "..", "crates", "replay", "stdin")
    data = b""
    with open(path, encoding="ascii") as lines:
        for line in lines:
            word, *rest = line.split()
            if word == "f":
                data = bytes.fromhex(rest[0]) if rest else b""
                yield data, len(data)
            elif word == "h":
                yield data[: int(rest[1])], int(rest[2])


def real():
    """Files of ncgen, as they are and with their count left open; each of them widened and narrowed too, as whole files that hold the same values."""
    for cdl in sorted(glob.glob(os.path.join(HERE, "cdl", "*.cdl"))):
        for kind in ("classic", "64-bit offset"):
            with tempfile.NamedTemporaryFile() as made:
                subprocess.run(["ncgen", "-k", kind, "-o", made.name, cdl], check=True)
                data = made.read()
            for file in (data, data[:4] + b"\xff" * 4 + data[8:]):
                files = [file, *(in_version(file, version) for version in (1, 2))]
                values = {tuple(READ.findall(expected(one, len(one), False)[1])) for one in files}
                if len(values) != 1:
                    sys.exit("answers: by the model, the values of %s change with the version" % cdl)
                yield from ((one, len(one)) for one in files)


def in_version(file, version):
    """The whole file: the new header, then the old bytes from the old header's end."""
    number, _, length, _, out = convert(file, len(file), version, bytes(len(file) + 4 * 64))
    if number:
        sys.exit("answers: the model refuses to convert %s by %d" % (file.hex(), number))
    return out[:length] + file[parse(file, len(file))[1] :]


def swept(n):
    """Headers of one to three variables whose numbers of bytes, added up and multiplied, pass what 32 and 53 bits hold."""
    pick = random.Random(4294967388)
    for _ in range(n):
        version = pick.choice([1, 2, 2])
        lengths = [(b"a", pick.choice([1, 3, 65535, 65536, 2**30, 2**31 - 1])), (b"b", pick.choice([1, 2, 5, 32768, 2**29])), (b"t", 0)]
        vars = [swept_var(pick, name, version) for name in (b"x", b"y", b"z")[: pick.choice([1, 1, 2, 3])]]
        tables = encode.tables(lengths, vars, word=pick.choice([OPEN, OPEN, OPEN, 0, 1, 2**31 - 1]), version=version)
        file = encode.header(tables)
        yield file, min(max(len(file), swept_size(pick, tables)), 2**64 - 1)


def near(pick):
    return pick.choice(NEAR) + pick.randrange(-9, 10)


def swept_var(pick, name, version):
    ids = ([2] if pick.random() < 0.7 else []) + [pick.randrange(2) for _ in range(pick.randrange(3))]
    begin = pick.choice([80, 200, near(pick), near(pick) // 2, 2**32 + pick.randrange(-40, 41)])
    return name, ids, pick.randrange(1, 7), begin % 2**31 if version == 1 else begin


def swept_size(pick, tables):
    """Often one that leaves no rest behind whole records."""
    begins = [var.begin for var in tables.vars if is_record(tables, var)]
    size, step = near(pick), record_size(tables)
    if not begins or pick.random() < 0.2:
        return size
    return min(begins) + step * max(0, (size - min(begins)) // step) + pick.choice([0, 0, 0, 1, step - 1])


def compare(command, pairs, right, conversions):
    """Lines that differ: the line, what it must be, what it is."""
    lines = [file.hex() + ("" if len(file) == size else " %d" % size) for file, size in pairs]
    run = subprocess.run(shlex.split(command) + ["--converted"] * conversions, input="\n".join(lines) + "\n", stdout=subprocess.PIPE, text=True)
    got = run.stdout.splitlines()
    got += ["(nothing)"] * (len(lines) - len(got))
    wrong = [row for row in zip(lines, right, got) if row[1] != row[2]]
    if run.returncode or len(got) > len(lines):
        wrong.append(("(end)", "status 0", "status %d" % run.returncode))
    print("  %s: %d differ" % (command, len(wrong)))
    return wrong


def compare_all(what, commands, pairs, conversions):
    answers = [expected(file, size, conversions) for file, size in pairs]
    counts = collections.Counter(number for number, _ in answers)
    print("%s: %d; by the model: %s" % (what, len(pairs), ", ".join("%d %d times" % row for row in sorted(counts.items()))))
    return [row for command in commands for row in compare(command, pairs, [line for _, line in answers], conversions)]


def main(arguments):
    numbers = {"--cases": CASES, "--sweep": SWEEP}
    while arguments[:1] and arguments[0] in numbers:
        numbers[arguments[0]], arguments = int(arguments[1]), arguments[2:]
    if not arguments:
        sys.exit(__doc__)
    made = [(file, len(file)) for file in itertools.islice(files(), numbers["--cases"])]
    wrong = compare_all("files", arguments, made + list(sized()), True)
    wrong += compare_all("files with tags in their empty lists", arguments, tagged(made), True)
    wrong += compare_all("recorded files and headers", arguments, list(recorded()), True)
    wrong += compare_all("files of ncgen", arguments, list(real()), True)
    wrong += compare_all("headers of the sweep", arguments, list(swept(numbers["--sweep"])), False)
    for line, right, answer in sorted(wrong, key=lambda row: len(row[0]))[:SHOWN]:
        print("file     %s\nexpected %s\ngot      %s" % (line, right, answer))
    return 1 if wrong else 0


if __name__ == "__main__":
    sys.exit(main(sys.argv[1:]))
