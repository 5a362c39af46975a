#!/usr/bin/env python3
"""Real files that Debian's packages carry (tests/archive), as the tool `fungal` answers them.

    archive.py TOOL FOLDER

Each file is accepted: then it is shown as ncdump shows it, header and every value, explained without a gap, widened and narrowed into files that compare equal, and not
suspect. Or it is refused by the model's number, and docs/DIFFERENCES.md names it with that number."""

import glob
import os
import re
import subprocess
import sys
import tempfile

from explain import explain, why_wrong
from model import Refused, parse
from show import at_once, told, value_cases

HERE = os.path.dirname(os.path.abspath(__file__))
ENOUGH = 40
# netCDF's library hides this attribute, which says what wrote the file; here it is shown like others
HIDDEN = re.compile(rb"\t\t:_NCProperties = .* ;\n")


def run(*command):
    return subprocess.run(command, stdout=subprocess.PIPE, stderr=subprocess.PIPE)


def content(path):
    with open(path, "rb") as file:
        return file.read()


def refused(path):
    """The number by which the model refuses a file, or None."""
    data = content(path)
    try:
        parse(data, len(data))
        return None
    except Refused as no:
        return no.number


def explained():
    """The names of files that docs/DIFFERENCES.md explains, with the numbers."""
    text = content(os.path.join(HERE, "..", "docs", "DIFFERENCES.md")).decode()
    return set(re.findall(r"^\| (\d+) \| .*?`([\w.-]+\.nc)`", text, re.M))


def header_wrong(tool, path):
    ours, theirs = run(tool, "show", path), run("ncdump", "-h", path)
    shown = HIDDEN.sub(b"", ours.stdout).replace(b"\n// global attributes:\n}", b"}") if b"_NCProperties" in ours.stdout else ours.stdout
    return [] if ours.returncode == 0 and shown == theirs.stdout else ["%s: the header is shown otherwise than by ncdump" % path]


def conversions_wrong(tool, path):
    with tempfile.TemporaryDirectory() as folder:
        new = os.path.join(folder, "new.nc")
        for word in ("widen", "narrow"):
            converted, same = run(tool, word, "-f", path, new), run(tool, "compare", path, new)
            if (converted.returncode, same.returncode) != (0, 0):
                return ["%s: %s: %s%s" % (path, word, converted.stderr.decode(), same.stdout.decode())]
    return []


def accepted_case(tool, path):
    """How many values were compared, and what is wrong."""
    values, wrong = value_cases(tool, path)
    wrong += header_wrong(tool, path) + conversions_wrong(tool, path)
    if run(tool, "check", path).returncode or run(tool, "suspect", path).returncode:
        wrong.append("%s: not accepted, or suspect" % path)
    return values, wrong


def refused_case(tool, path, number, known):
    answer = run(tool, "check", path)
    if answer.returncode != 1 or not re.match(r"%s: %d( at byte|:)" % (re.escape(path), number), answer.stdout.decode()):
        return ["%s: answered otherwise than by %d" % (path, number)]
    name = os.path.basename(path)
    return [] if (str(number), name) in known else ["%s: docs/DIFFERENCES.md has no line of %d that names it" % (path, number)]


def main(arguments):
    if len(arguments) != 2:
        sys.exit(__doc__)
    tool, folder = os.path.abspath(arguments[0]), os.path.abspath(arguments[1])
    paths = sorted(glob.glob(os.path.join(folder, "*", "*.nc")))
    if len(paths) < ENOUGH:
        print("real files: only %d can be had, skipped" % len(paths))
        return 0
    numbers = {path: refused(path) for path in paths}
    known = explained()
    cases = at_once(accepted_case, [(tool, path) for path in paths if numbers[path] is None])
    wrong = [case for _, some in cases for case in some]
    wrong += [case for path in paths if numbers[path] for case in refused_case(tool, path, numbers[path], known)]
    wrong += ["%s: %s" % (path, why) for path, told in zip(paths, explain([tool], paths)) for why in [why_wrong(content(path), told)] if why]
    values = sum(count for count, _ in cases)
    return 1 if told("real files: %d, %d of them refused; %d values beside ncdump's" % (len(paths), len(paths) - len(cases), values), wrong) else 0


if __name__ == "__main__":
    sys.exit(main(sys.argv[1:]))
