"""Headers from tables in a short form, and their parts. Nothing is checked: the cases want wrong headers too."""

from model import Attr, Dim, Tables, Var
from model import header_bytes as header
from model import name_bytes as name
from model import spelled as word


def tables(dims=(), vars=(), attrs=(), word=0, version=1):
    """Short form: dims (name, length), attrs (name, type, values), vars (name, ids, type, begin[, attrs])."""

    def attributes(rows):
        return [Attr(*row) for row in rows]

    def variable(name, ids, type, begin, own=()):
        return Var(name, list(ids), attributes(own), type, 4, begin)

    return Tables(version, word, 0, 0, [Dim(*row) for row in dims], attributes(attrs), [variable(*row) for row in vars])


def file(*rows, **more):
    return header(tables(*rows, **more))
