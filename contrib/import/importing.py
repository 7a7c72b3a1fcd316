"""What the importers share: a log while it is translated, its text, and what is told of lines that can't be translated."""

from __future__ import annotations

import argparse
import contextlib
import re
import sys
from collections.abc import Iterator
from typing import NamedTuple

BITS = 64
PROCESSORS = 4096
WIDTHS = (1, 2, 4, 8)
NUMBER = re.compile(r"0x[0-9a-f]+|[0-9]+", re.ASCII)
# How many numbers an operation may have, with its address.
OPERATIONS = {**dict.fromkeys(("ld", "st", "wr", "lr", "sc", "last"), (2,)), "sw": (3,), "un": (1,), "dr": (0, 1, 2), "mb": (0,), "stbar": (0,)}
# Of the lines that can't be translated so many are told.
MOST_TOLD = 20
# No number of 64 bits has so many digits, even with many zeros before it.
MOST_DIGITS = 1000
STATUSES = """\
status: 0 the log was printed; 2 a line can't be translated, which is told with its number, and nothing was printed, since a log
without it could show a violation that is none; 4 a file can't be read or written"""


class NoLine(Exception):
    """Why a line can't be translated."""


class Bytes(NamedTuple):
    """So many bytes from an address on, which stand in place of an address."""

    address: int
    width: int

    def __str__(self):
        return f"{self.address}/{self.width}"

    def check(self):
        """Refuses what are no bytes of memory."""
        if self.width not in WIDTHS:
            raise NoLine(f"width {self.width} isn't 1, 2, 4 or 8")
        number_within(self.address, "address")
        number_within(self.address + self.width - 1, "address")


class Log:
    """A log while it is translated. `place` names the file and line that are read; it is kept for each line of the log.
    `is_ended` says that nothing may follow, `has_widths` whether addresses have widths, once that is known; `bytes` are those of
    first values, or their addresses."""

    def __init__(self, model):
        self.model, self.first, self.operations, self.place, self.is_ended = model, {}, [], "", False
        self.has_widths, self.bytes = None, set()

    def check(self, address, *values):
        """Refuses what can't stand in a line: an address or bytes, and values of it."""
        has_width = isinstance(address, Bytes)
        if self.has_widths not in (None, has_width):
            raise NoLine("addresses with a width and addresses without one")
        self.has_widths = has_width
        if has_width:
            address.check()
        else:
            number_within(address, "number")
        for value in values:
            number_within(value, "number", 8 * address.width if has_width else BITS)

    def add_first(self, address, value):
        """The first value of an address, or of bytes."""
        self.check(address, value)
        found = range(address.address, address.address + address.width) if self.has_widths else (address,)
        if not self.bytes.isdisjoint(found):
            raise NoLine(f"a second first value of address {address}")
        self.bytes.update(found)
        self.first[address] = value, self.place

    def add(self, processor, word, *numbers, tag=""):
        """An operation of a processor: its address or bytes come first of the numbers. A tag stands at the end of the line."""
        if not 0 <= processor < PROCESSORS:
            raise NoLine(f"processor {processor} isn't 0 to {PROCESSORS - 1}")
        if numbers:
            self.check(*numbers)
        self.operations.append((" ".join(map(str, (processor, word, *numbers))) + (f" # {tag}" if tag else ""), self.place))

    def lines(self) -> Iterator[tuple[str, str]]:
        """The lines of the log, each with its place."""
        if self.model == "pso":
            yield "model pso", "model"
        for address, (value, place) in sorted(self.first.items()):
            yield f"init {address} {value}", place
        yield from self.operations
        yield "end", "end"


class Importer:
    """Reads files line by line into a log. `accept` gets the log, the number of the file from 0 and a line, and raises NoLine;
    `finish` gets the log once all is read."""

    def __init__(self, name, accept, finish=lambda log: None):
        self.name, self.accept, self.finish, self.told = name, accept, finish, 0

    def tell(self, place, why):
        """Tells of a line that can't be translated."""
        self.told += 1
        if self.told <= MOST_TOLD:
            print(f"{self.name}: {place}: {why}", file=sys.stderr)

    def read(self, log, number, path):
        """Translates the lines of a file, or of standard input where it is `-`."""
        with contextlib.ExitStack() as stack:
            file = sys.stdin.buffer if path == "-" else stack.enter_context(open(path, "rb"))
            for line_number, line in enumerate(file, 1):
                log.place = f"{path}:{line_number}"
                try:
                    self.accept(log, number, line.decode("utf-8", "replace"))
                except NoLine as why:
                    self.tell(log.place, why)

    def run(self, log, paths, lines_path):
        """Translates files and prints the log. The status of the process."""
        try:
            for number, path in enumerate(paths):
                self.read(log, number, path)
            self.finish(log)
            if self.told:
                print(f"{self.name}: {self.told} lines can't be translated; no log was printed", file=sys.stderr)
                return 2
            write_log(log, lines_path)
        except OSError as error:
            print(f"{self.name}: {error}", file=sys.stderr)
            return 4
        return 0


def write_log(log, lines_path):
    """Prints the log and, where a file is named, writes there for each line of the log where it came from."""
    with contextlib.ExitStack() as stack:
        places = stack.enter_context(open(lines_path, "w", encoding="utf-8", newline="\n")) if lines_path else None
        for line, place in log.lines():
            sys.stdout.write(line + "\n")
            if places:
                places.write(place + "\n")
        sys.stdout.flush()


def number_of(digits, base=10):
    """The number that digits spell; `Log.add` sees whether it is of 64 bits."""
    if len(digits) > MOST_DIGITS:
        raise NoLine(f"number {digits[:20]}.. isn't of 64 bits")
    return int(digits, base)


def number_within(number, what, bits=BITS):
    """Refuses what is no number of so many bits."""
    if not 0 <= number < 1 << bits:
        raise NoLine(f"{what} {number} isn't of {bits} bits")


def number_said(word):
    """The number that a word is, decimal or as 0x1f."""
    if not NUMBER.fullmatch(word):
        raise NoLine(f"no number: {word[:60]!r}")
    return number_of(word[2:], 16) if word.startswith("0x") else number_of(word)


def address_said(word):
    """The address that a word is, or the bytes, as 0x1f/4."""
    address, slash, width = word.partition("/")
    return Bytes(number_said(address), number_said(width)) if slash else number_said(address)


def numbers_said(words):
    """The address or bytes, and the values, that words are."""
    return [number_said(word) if place else address_said(word) for place, word in enumerate(words)]


def is_operation(words):
    """Whether words are a processor, an operation and as many more as it has."""
    return len(words) > 1 and len(words) - 2 in OPERATIONS.get(words[1], ())


def is_frame(log, words):
    """Takes the words of a line that is no operation, `model pso`, `init A V` or `end`. Whether they were one."""
    if log.is_ended:
        raise NoLine("a line after `end`")
    if words == ["end"]:
        log.is_ended = True
    elif words == ["model", "pso"]:
        log.model = "pso"
    elif words[0] == "init" and len(words) == 3:
        log.add_first(*numbers_said(words[1:]))
    else:
        return False
    return True


def parser_of(name, description):
    """The options that all importers have."""
    parser = argparse.ArgumentParser(prog=name, description=description, epilog=STATUSES, formatter_class=argparse.RawDescriptionHelpFormatter)
    parser.add_argument("--lines", metavar="FILE", help="writes for each line of the log the file and line that it came from")
    return parser
