"""What the scripts share that draw logs of locks and rings: kinds of faults, how a log is drawn, and calls of a program whose seconds
and memory are measured. They write to the current folder."""

from __future__ import annotations

import pathlib
import statistics
import subprocess
import sys
from typing import NamedTuple

TOP = pathlib.Path(__file__).resolve().parent.parent
# Names of kinds of faults, and the options that draw their logs.
KINDS = (
    ("a lock taken twice", "", "twice"),
    ("a lock taken twice, and its counter's values repeat", "--repeat", "twice"),
    ("a stale index, behind a lock", "", "stale-index"),
    ("stale data, behind a lock", "", "stale-data"),
    ("a stale index of a ring", "--ring", "stale-index"),
    ("stale data of a ring", "--ring", "stale-data"),
)


class Measured(NamedTuple):
    """A call: its status, what it printed, its seconds, and its peak of memory in MiB."""

    status: int
    output: bytes
    seconds: float
    memory: float


def measured(*command):
    """Calls a program, by `time`, since a child of this script counts its memory too."""
    ran = subprocess.run(["/usr/bin/time", "-o", "figures", "-f", "%e %M", *command], stdin=subprocess.DEVNULL, capture_output=True, check=False)
    seconds, kibibytes = pathlib.Path("figures").read_text(encoding="ascii").splitlines()[-1].split()
    return Measured(ran.returncode, ran.stdout, float(seconds), int(kibibytes) / 1024)


def draw(options, path):
    """Draws a log into a file."""
    with open(path, "wb") as file:
        subprocess.run([sys.executable, TOP / "tests/draw-locks", *options], stdout=file, check=True)


def shown(figures, form):
    """The median of some figures, and the greatest."""
    return " and ".join(format(figure, form) for figure in (statistics.median(figures), max(figures))) if figures else "none"
