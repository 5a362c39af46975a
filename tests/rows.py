"""Tables as the programs hold them: numbers in rows, of which some are positions in a text.

A number goes by its letter, or by its letter and row, as the lines of crates/replay name it; one that is not there is 0."""

from model import ATTRS, DIMS, IDS, OPEN, SIZES, VARS, Attr, Dim, Tables, Var, all_attrs

DIM, ATTR, VAR = "DEl", "NCTMB", "pHckiFOZb"
CAPACITY = {"d": DIMS, "v": VARS, "A": ATTRS, "G": ATTRS}


def first_attrs(t):
    """The row of each variable's first attribute."""
    firsts, n = [], len(t.attrs)
    for var in t.vars:
        firsts.append(n)
        n += len(var.attrs)
    return firsts


def numbers_of(t):
    numbers = {"V": t.version, "W": t.word, "n": t.count, "S": t.size}
    numbers.update({"d": len(t.dims), "A": len(all_attrs(t)), "G": len(t.attrs), "v": len(t.vars)})

    def put(letters, i, *row):
        numbers.update(zip(((letter, i) for letter in letters), row))

    for i, dim in enumerate(t.dims):
        put(DIM, i, dim.at, len(dim.name), dim.length)
    for i, attr in enumerate(all_attrs(t)):
        put(ATTR, i, attr.at, len(attr.name), attr.type, len(attr.values) // SIZES[attr.type], attr.values_at)
    for i, (var, first) in enumerate(zip(t.vars, first_attrs(t))):
        id = var.ids[0] if var.ids else 0
        put(VAR, i, var.at, len(var.name), var.type, len(var.ids), id, first, len(var.attrs), var.vsize, var.begin % 2**64)
    return numbers


def tables_of(numbers, t, text):
    """The model's tables of these numbers and the text; ids after the first are those of t. Of a count above its capacity, and of a name or
    values that end behind the text, as much is kept as tells so."""

    def row(letters, i):
        return [numbers.get((letter, i), 0) for letter in letters]

    def rows(make, letter):
        return [make(i) for i in range(min(numbers[letter], CAPACITY[letter] + 1))]

    def part(at, n):
        return text[at:][:n].ljust(min(n, len(text) + 1), b"\xff")

    def dim(i):
        at, chars, length = row(DIM, i)
        return Dim(part(at, chars), length, at)

    def attr(i):
        at, chars, code, count, values = row(ATTR, i)
        return Attr(part(at, chars), code, part(values, count * SIZES.get(code, 0)), at, values)

    def var(i):
        at, chars, code, rank, id, first, n, vsize, begin = row(VAR, i)
        more = t.vars[i].ids[1:] if i < len(t.vars) else []
        ids = [id, *more, *[0] * rank][:rank]
        signed = begin - 2**64 if begin >> 63 else begin
        return Var(part(at, chars), ids, [attr(k) for k in range(first, first + n)], code, vsize, signed, at)

    return Tables(numbers["V"], numbers["W"], numbers["n"], numbers["S"], rows(dim, "d"), rows(attr, "G"), rows(var, "v"))


def inside(numbers, text):
    """The counts are within the tables; names and values within the text; a variable's dimensions and attributes are rows that there are."""

    def number(letter, i):
        return numbers.get((letter, i), 0)

    def fits(at, n):
        return at + n <= len(text)

    def attr_fits(i):
        size = SIZES.get(number("T", i), 0)
        return fits(number("N", i), number("C", i)) and fits(number("B", i), number("M", i) * size)

    def var_fits(i):
        own = number("F", i) + number("O", i) <= numbers["A"]
        return fits(number("p", i), number("H", i)) and number("k", i) <= IDS and own

    return (
        all(numbers[letter] <= most for letter, most in CAPACITY.items())
        and numbers["G"] <= numbers["A"]
        and all(fits(number("D", i), number("E", i)) for i in range(numbers["d"]))
        and all(map(attr_fits, range(numbers["A"])))
        and all(map(var_fits, range(numbers["v"])))
    )


# at and around the limits of each kind of number
POSITIONS = (0, 4, 2**63, 9999999999999999999)  # at 4 stands a count word, which may be no UTF-8
LENGTHS = (0, 1, 255, 256, 257, 2**16 - 1)
WORDS = (0, 1, 2**31 - 1, 2**31, OPEN - 1, OPEN)
LIMITS = {
    "V": (0, 1, 2, 3, 255),
    "W": (*WORDS, OPEN + 1, 2**63),
    "n": (0, 1, 2**62),
    "S": (0, 2**31, 2**62 - 1, 2**62, 2**62 + 1, 2**63),
    "D": POSITIONS,
    "E": LENGTHS,
    "l": WORDS,
    "N": POSITIONS,
    "C": LENGTHS,
    "T": (0, 1, 2, 6, 7, 2**16 - 1),
    "M": (*WORDS, 2, 2**29, 2**30),
    "B": POSITIONS,
    "p": POSITIONS,
    "H": LENGTHS,
    "c": (0, 1, 6, 7, 255),
    "k": (0, 1, 2, 8, 9, 255),
    "i": (*WORDS, 31, 32),
    "F": (0, 1, 2, 127, 128, 255),
    "O": (0, 1, 2, 127, 128, 255),
    "Z": (*WORDS, OPEN + 1, 2**63),
    "b": (0, 2**31 - 1, 2**31, 2**62 - 1, 2**62, 2**62 + 1, 2**63),
}


def changes(numbers, text, length):
    """One number changed, to its limits and to those of the others: its letter, or letter and row, and the new number."""
    for letter, most in CAPACITY.items():
        for n in (0, numbers[letter] - 1, numbers[letter] + 1, most, most + 1, 2**63):
            yield (letter,), max(n, 0)
    for key, value in numbers.items():
        letter = key[0]
        if letter in CAPACITY:
            continue
        near = [value - 1, value + 1] if letter in "SnlikFOM" else []
        if letter == "S":
            near += [length - 1, length]
        if letter in "DNp":
            chars = numbers[{"D": "E", "N": "C", "p": "H"}[letter], key[1]]
            near += [len(text) - chars, len(text) - chars + 1]
        for n in (*LIMITS[letter], *near):
            if 0 <= n != value:
                yield tuple(key), n
