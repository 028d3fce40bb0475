"""Asks the replay program (docs/REPLAY.md): requests in, answers out.

REPLAY: another program that answers such requests. RUNNER: words to put before the program, as an emulator's; by default
none on x86-64, elsewhere qemu-x86_64 with the kit's C library."""

import os
import platform
import shutil
import subprocess
import sys
from pathlib import Path

ROOT = Path(__file__).resolve().parent.parent
PROGRAM = Path(os.environ.get("REPLAY", ROOT / "crates/replay/out/replay"))


def command():
    if not os.access(PROGRAM, os.X_OK):
        sys.exit(f"no program {PROGRAM}: run 'bin/build replay' first")
    if "RUNNER" in os.environ or platform.machine() == "x86_64":
        return [*os.environ.get("RUNNER", "").split(), PROGRAM]
    kit = os.environ.get("RATTLE_HOME") or Path(os.path.realpath(shutil.which("rt"))).parent.parent
    libraries = Path(kit) / "toolchain/lib"
    return ["qemu-x86_64", libraries / "ld-linux-x86-64.so.2", "--library-path", libraries, PROGRAM]


def ask(requests):
    """The answers to requests, one each."""
    lines = "".join(f"{request}\n" for request in requests)
    run = subprocess.run(command(), input=lines.encode("ascii"), stdout=subprocess.PIPE, check=True)
    answers = run.stdout.decode("ascii").splitlines()
    assert len(answers) == len(requests), f"{len(requests)} requests, {len(answers)} answers"
    return answers


def as_hex(data):
    return data.hex() or "-"


def knows(request):
    """Does the program answer such a request?"""
    return ask([request]) != ["bad request"]


def in_rows(numbers, rows):
    """The numbers of an answer, row by row."""
    width = len(numbers) // rows if rows else 0
    return [tuple(map(int, numbers[row * width : (row + 1) * width])) for row in range(rows)]


def answered_header(answer):
    """A `header` answer: H, key, flags, offset, checksum, and the rows."""
    word, *front = answer.split(" ")
    assert word == "header", answer
    h, key, flags, offset, check, rows = front[:6]
    return int(h), int(key), flags, int(offset), check == "1", in_rows(front[6:], int(rows))


def answered_command(answer):
    """A `command` or `commandby` answer: where the remainder starts, and the rows, each cut to the nine numbers of C16 (docs/RULES.md)."""
    word, rows, start, *numbers = answer.split(" ")
    assert word in ("command", "commandby"), answer
    return int(start), [row[:9] for row in in_rows(numbers, int(rows))]
