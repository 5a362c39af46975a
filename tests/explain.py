#!/usr/bin/env python3
"""What `fungal explain` says of every file of the corpus, accepted and refused.

    explain.py [--cases N] COMMAND..

The ranges of bytes cover the header, or what comes before the place of a refusal, without a gap or an overlap: they are those that the model takes
one by one. Rules, their nesting and the numbers and names that they read are those of a walk by the format's BNF, written down here a second time. Number, place, record count and end are
the model's. A refusal names a rule that is not met, the bytes shown are the file's, and the marked ones are those that offend: of 11 to 15 in the first item that breaks the rule.
"""

import dataclasses
import itertools
import os
import re
import subprocess
import sys
import tempfile

from corpus import files
from model import FAR, OPEN, SIZES, WIDE, Cursor, Refused, end, is_record, padded, parse, record_count

CASES, BATCH, SHOWN = 8000, 400, 5
LINE = re.compile(r" *(?:(\d+)(?:-(\d+))?|-)  ( *)(\S.*)$")
TYPES = [None, ("NC_BYTE", "bytes", "BYTE"), ("NC_CHAR", "chars", "CHAR"), ("NC_SHORT", "shorts", "SHORT"), ("NC_INT", "ints", "INT"), ("NC_FLOAT", "floats", "FLOAT"), ("NC_DOUBLE", "doubles", "DOUBLE")]
# rules with rules below them, which take no bytes of their own
NODES = {"header", "magic", "dim_list", "gatt_list", "var_list", "vatt_list", "dim", "attr", "var", "name", "namestring", *(row[1] for row in TYPES[1:])}
# what the tool says of the rules that are judged after the grammar
RULES = {
    11: ("no name is empty", "at most one dimension", "every id", "the unlimited dimension"),
    12: ("a begin is not", "a padded chunk", "the record size"),
    13: ("numrecs left open",),
    14: ("numrecs left open",),
    15: ("no variable ends",),
}


class Taken(Cursor):
    """Notes every range that is taken."""

    def __init__(self, prefix):
        super().__init__(prefix, len(prefix))
        self.ranges = []

    def take(self, n):
        start = self.at
        try:
            return super().take(n)
        finally:
            self.ranges.append((start, min(start + n, len(self.prefix))))


class Walked(Exception):
    """The walk has come to its end."""


class Walk:
    """The rules of the BNF up to a place: depth, rule, and what a line says first."""

    def __init__(self, file, stop):
        self.file, self.stop, self.at, self.depth, self.rows, self.dims = file, stop, 0, 0, [], []
        try:
            self.header()
        except Walked:
            pass

    def leaf(self, rule, n, says=lambda part: None):
        part = self.file[self.at : self.at + n]
        if self.at + n > self.stop:
            self.rows += [(self.depth, rule, "unfinished:")] * (self.at < self.stop)
            raise Walked
        self.rows += [(self.depth, rule, says(part))] * (n > 0)
        self.at += n
        return part

    def node(self, rule, *steps):
        self.rows.append((self.depth, rule, None))
        self.depth += 1
        got = [step() for step in steps]
        self.depth -= 1
        return got

    def word(self, rule, says=lambda n: str(n)):
        return int.from_bytes(self.leaf(rule, 4, lambda part: says(int.from_bytes(part, "big"))), "big")

    def header(self):
        numrecs = lambda: self.word("numrecs", lambda n: "STREAMING:" if n == OPEN else str(n))
        lists = [lambda: self.list("dim_list", "NC_DIMENSION", self.dim), lambda: self.list("gatt_list", "NC_ATTRIBUTE", self.attr), lambda: self.list("var_list", "NC_VARIABLE", self.var)]
        self.node("header", lambda: self.node("magic", lambda: self.leaf("'C' 'D' 'F'", 3), lambda: self.leaf("VERSION", 1, lambda part: "%d:" % part[0])), numrecs, *lists)

    def list(self, rule, tag, item):
        start = self.file[self.at : min(self.at + 4, self.stop)]
        if len(start) < 4:
            return self.node(rule, lambda: self.leaf("ABSENT or tag", 4))
        if start == bytes(4):
            return self.node(rule, lambda: self.leaf("ABSENT", 8, lambda part: "none"))
        return self.node(rule, lambda: self.leaf(tag, 4), lambda: [item() for _ in range(self.word("nelems"))])

    def name(self):
        n, named = None, []

        def length():
            nonlocal n
            n = self.word("nelems")

        self.node("name", length, lambda: named.extend(self.node("namestring", lambda: self.leaf("ID1 [IDN ...]", n, shown), lambda: self.padding(n))))
        return named[0]

    def padding(self, n):
        self.leaf("padding", -n % 4, lambda part: "%d zero" % len(part))

    def dim(self):
        name, length = self.node("dim", self.name, lambda: self.word("dim_length", lambda n: "0, the record" if n == 0 else str(n)))
        self.dims.append(name)

    def type(self):
        return self.word("nc_type", lambda code: TYPES[code][0])

    def attr(self):
        def values():
            code, n = self.type(), self.word("nelems")
            _, list, item = TYPES[code]
            self.node(list, lambda: self.leaf("[%s ...]" % item, n * SIZES[code]), lambda: self.padding(n * SIZES[code]))

        self.node("attr", self.name, values)

    def var(self):
        dimid = lambda: self.word("dimid", lambda id: "%d:" % id if id < len(self.dims) else str(id))
        ids = lambda: [dimid() for _ in range(self.word("nelems"))]
        vsize = lambda: self.word("vsize", lambda n: "indeterminate" if n == OPEN else str(n))
        begin = lambda: self.leaf("begin", 8 if self.file[3] == 2 else 4, lambda part: str(int.from_bytes(part, "big", signed=True)))
        self.node("var", self.name, ids, lambda: self.list("vatt_list", "NC_ATTRIBUTE", self.attr), self.type, vsize, begin)


def shown(name):
    """A name in quotes, where it is plain and short; else how it starts."""
    plain = re.match(rb"[\w .-]*", name)[0].decode()
    return '"%s' % plain[:48]


def tables_of(file):
    """What a header says that the grammar has taken, whatever its rules say."""
    return Cursor(file, len(file)).header((1, 2))


def broken_item(t):
    """Where the bytes start that break a model rule first: items in the order of the file, and of one item the name before the ids."""
    lists = [t.dims, t.attrs, *([*t.vars[:i], var] if kind == 0 else var.attrs for i, var in enumerate(t.vars) for kind in (0, 1))]
    for number, items in enumerate(lists):
        last = items[-1:] if number > 1 and number % 2 == 0 else items
        for i, item in enumerate(items):
            if not any(item is one for one in last):
                continue
            if not item.name:
                return item.at - 4
            if any(other.name == item.name for other in items[:i]):
                return item.at
            if number == 0 and item.length == 0 and any(dim.length == 0 for dim in items[:i]):
                return item.at + len(item.name) + -len(item.name) % 4
            if number > 1 and number % 2 == 0:
                first = item.at + len(item.name) + -len(item.name) % 4 + 4
                bad = [k for k, id in enumerate(item.ids) if id >= len(t.dims)] or [k for k, id in enumerate(item.ids) if k and t.dims[id].length == 0]
                if bad:
                    return first + 4 * bad[0]
    return None


def broken_size(file, t):
    """The same of rule 12; None where it is the record size."""
    for var, bytes_at in zip(t.vars, places(file)):
        if not 0 <= var.begin <= FAR:
            return bytes_at["begin"]
        if padded(t, var) > WIDE:
            return bytes_at["ids"]
    return None


def broken_end(file, t):
    """The same of rule 15: what takes the first such variable so far, its begin, the records before its last, or its lengths."""
    t = dataclasses.replace(t, size=len(file))
    t.count = record_count(t)
    for var, bytes_at in zip(t.vars, places(file)):
        if end(t, var) > FAR:
            steps = end(t, var) - padded(t, var) - var.begin if is_record(t, var) and t.count else 0
            return max((padded(t, var), 2, bytes_at["ids"]), (steps, 1, 4), (var.begin, 0, bytes_at["begin"]))[2]
    return None


def places(file):
    """Where the ids and the begin of each variable start."""
    found, taken = [], Taken(file)
    taken.header((1, 2))
    ranges = (pair for pair in taken.ranges if pair[0] < pair[1])
    for _, rule, _ in Walk(file, taken.at).rows:
        if rule == "var":
            found.append({"ids": None, "begin": None})
        if rule in NODES:
            continue
        first, _ = next(ranges)
        if rule == "dimid" and found[-1]["ids"] is None:
            found[-1]["ids"] = first
        if rule == "begin":
            found[-1]["begin"] = first
    return found


def expected(file):
    """The last line's start, the ranges, and the walk."""
    taken = Taken(file)
    try:
        taken.header((1, 2))
    except Refused:
        pass
    try:
        tables, stop = parse(file, len(file))
        answer = "accepted: 0, %d records, header ends at byte %d" % (tables.count, stop)
    except Refused as no:
        stop = no.place if no.number <= 10 else taken.at
        answer = "refused: %d%s: " % (no.number, " at byte %d" % no.place if no.number <= 10 else "")
    return answer, [(first, last) for first, last in taken.ranges if first < last <= stop], Walk(file, stop).rows


class Explained:
    """What the tool printed of one file."""

    def __init__(self, lines):
        split = next(i for i, line in enumerate(lines) if line.startswith(("accepted: ", "refused: ")))
        self.rows = [self.row(line) for line in lines[:split]]
        self.answer, self.fault = lines[split], lines[split + 1 :]

    @staticmethod
    def row(line):
        first, last, indent, rest = LINE.match(line).groups()
        span = None if first is None else (int(first), int(last or first) + 1)
        return len(indent) // 2, span, rest

    def leaves(self):
        """Rows with none below them; a rule of which no byte is there has no range."""
        following = [depth for depth, _, _ in self.rows[1:]] + [0]
        return [span for (depth, span, _), after in zip(self.rows, following) if after <= depth and span]

    def nests(self):
        """Every range reaches from the first to the last byte of the leaves below it."""
        for i, (depth, span, _) in enumerate(self.rows):
            below = list(itertools.takewhile(lambda row: row[0] > depth, self.rows[i + 1 :]))
            spans = [span for _, span, _ in below if span]
            if spans and span != (min(first for first, _ in spans), max(end for _, end in spans)):
                return False
        return True

    def marked(self):
        """The bytes shown, with their first place, and the places that are marked."""
        if len(self.fault) < 4:
            return 0, "", []
        shown = re.match(r"  byte (\d+): (.*)$", self.fault[1])
        place, hexes = shown.groups()
        marks = self.fault[2][shown.start(2) :]
        return int(place), hexes, [int(place) + at // 3 for at in range(0, len(marks), 3) if marks[at : at + 2] == "^^"]


def offends(number, place, file):
    """Where the bytes start that offend; None where none do."""
    if number == 2:
        return len(file)
    if number == 3:
        return next(i for i in range(3) if file[i] != b"CDF"[i])
    if number == 6:
        length = int.from_bytes(file[place - 4 : place], "big")
        return place + decoded(file[place : place + length])
    if number == 7:
        return next(i for i in range(place, place + 3) if file[i])
    if number == 9:
        return next(i for i in range(place, place + 8) if not bytes(8).startswith(file[place : i + 1]) and (i >= place + 4 or file[place : i + 1] not in starts(file, place)))
    if number in (13, 14):
        return 4
    after = {11: lambda: broken_item(tables_of(file)), 12: lambda: broken_size(file, tables_of(file)), 15: lambda: broken_end(file, tables_of(file))}
    return after[number]() if number in after else 3 if number == 4 else place


def decoded(name):
    """How many bytes of a name are UTF-8."""
    try:
        name.decode()
        return 0
    except UnicodeDecodeError as error:
        return error.start


def starts(file, place):
    """The beginnings of the tag that may stand at a place, by the list that the walk has come to."""
    tag = {"dim_list": 0x0A, "gatt_list": 0x0C, "vatt_list": 0x0C, "var_list": 0x0B}[Walk(file, place).rows[-1][1]]
    return [bytes([0, 0, 0, tag])[:n] for n in range(1, 5)]


def why_wrong(file, explained):
    answer, ranges, rows = expected(file)
    if not explained.answer.startswith(answer):
        return "answers %r, not %r" % (explained.answer, answer)
    if explained.leaves() != ranges or not explained.nests():
        return "covers %s, not %s" % (explained.leaves(), ranges)
    derived = [row for row in itertools.zip_longest(explained.rows, rows) if not is_derived(*row)]
    if derived:
        return "derives %s, not %s" % derived[0]
    if answer.startswith("accepted"):
        return "says more of an accepted file" if explained.fault else None
    number, place = re.match(r"refused: (\d+)(?: at byte (\d+))?", answer).groups()
    return why_wrong_fault(file, explained, int(number), int(place or 0))


def is_derived(line, row):
    """Whether a line has the depth, the rule and the words of a row."""
    if not line or not row:
        return False
    (depth, _, text), (wanted, rule, says) = line, row
    return depth == wanted and (text + "  ").startswith(rule + "  ") and text[len(rule) :].strip().startswith(says or "")


def why_wrong_fault(file, explained, number, place):
    if not explained.fault or not explained.fault[0].startswith("  not met: "):
        return "names no rule that is not met"
    if number in RULES and not explained.fault[0][11:].startswith(RULES[number]):
        return "names another rule than one of %d: %s" % (number, explained.fault[0])
    start, hexes, marks = explained.marked()
    bytes_there = " ".join("%02x" % file[i] if i < len(file) else ".." for i in range(start, start + len(hexes.split())))
    if hexes != bytes_there:
        return "shows %s where the file has %s" % (hexes, bytes_there)
    first = offends(number, place, file)
    if marks[:1] != ([] if first is None else [first]) or number in (2, 3, 4, 7, 9) and len(marks) != 1:
        return "marks %s, not from %s on" % (marks, first)
    return None


def explain(command, names):
    """What is printed of each file."""
    told = subprocess.run([*command, "explain", *names], stdout=subprocess.PIPE).stdout.decode()
    headings = ["%s, %d bytes\n" % (name, os.path.getsize(name)) for name in names]
    starts = [told.index(heading) for heading in headings]
    for heading, start, end in zip(headings, starts, starts[1:] + [len(told)]):
        yield Explained(told[start + len(heading) : end].splitlines())


def put(folder, batch, first):
    """Names that were not used before: to write a file anew may wait for the disk."""
    for i, file in enumerate(batch, first):
        name = os.path.join(folder, "%d.nc" % i)
        with open(name, "wb") as out:
            out.write(file)
        yield name


def main(arguments):
    n = CASES
    if arguments[:1] == ["--cases"]:
        n, arguments = int(arguments[1]), arguments[2:]
    if not arguments:
        sys.exit(__doc__)
    made, wrong, ranges = list(itertools.islice(files(), n)), [], 0
    with tempfile.TemporaryDirectory() as folder:
        for first in range(0, len(made), BATCH):
            batch = made[first : first + BATCH]
            for file, explained in zip(batch, explain(arguments, list(put(folder, batch, first)))):
                why = why_wrong(file, explained)
                ranges += len(explained.leaves())
                wrong += [(file.hex(), why)] if why else []
    print("explained: %d files, %d ranges, %d wrong" % (len(made), ranges, len(wrong)))
    for line, why in sorted(wrong, key=lambda row: len(row[0]))[:SHOWN]:
        print("  %s\n    %s" % (line, why))
    return 1 if wrong else 0


if __name__ == "__main__":
    sys.exit(main(sys.argv[1:]))
