"""Streams of traces as bytes: their lines, their traces, and the program of a trace."""

from __future__ import annotations

import re


def lines_of(text):
    """Its lines with their line feeds, and a part without one at the end."""
    return re.findall(rb"[^\n]*\n|[^\n]+", text)


def traces_of(stream):
    """The traces in a stream of them."""
    return re.findall(rb"tso trace [12]\n(?:.*\n)*?end\n", stream)


def without_values_read(trace):
    """The program of a trace."""
    lines = [re.sub(rb"^(ld [0-9]+|sw [0-9]+) [0-9]+", rb"\1", line) for line in lines_of(trace)]
    return b"".join([lines[0].replace(b"trace", b"program"), *lines[1:]])
