"""Runs the oracle over lines, with 4 GiB of address space so that every machine gives the same answers."""

import os
import subprocess

HOME = os.path.join(os.path.dirname(os.path.abspath(__file__)), "..", "oracle")
PROGRAM = ["prlimit", "--as=%d" % (4 << 30), os.path.join(HOME, "target", "release", "oracle")]
BATCH = 500  # lines a run, so that an abort costs little


def build():
    quiet = dict(os.environ, RUSTFLAGS="-Awarnings")
    subprocess.run(["cargo", "build", "--release", "--quiet"], cwd=HOME, env=quiet, check=True)


def ask(lines, program=PROGRAM):
    """One answer a line; 'abort' where the program ended on it, and on with the next."""
    plain = dict(os.environ, RUST_BACKTRACE="0")
    answers = []
    while len(answers) < len(lines):
        rest = "".join(line + "\n" for line in lines[len(answers) : len(answers) + BATCH])
        run = subprocess.run(program, input=rest, stdout=subprocess.PIPE, stderr=subprocess.DEVNULL, text=True, env=plain)
        answers += run.stdout.splitlines()
        if run.returncode:
            answers.append("abort")
    return answers
