#!/usr/bin/env python3
"""A reading of runs that say their own order, written apart from the program: the lines of such a text, the machine that they are steps of,
and the report.

usage: tests/run_reading.py [--examples | LOG]

prints the report of a text, or of standard input, and ends with its status. With --examples it reads those of tests/runs instead, and prints each
whose report or status is another."""

from __future__ import annotations

import pathlib
import re
import sys
from dataclasses import dataclass, field

EXAMPLES = pathlib.Path(__file__).resolve().parent / "runs"
DECIMAL, HEXADECIMAL = re.compile(rb"0|[1-9][0-9]*"), re.compile(rb"0x[0-9a-f]+")
# The arguments of each kind of line: a place, and values of it.
ARGUMENTS = dict.fromkeys((b"ld", b"st", b"wr", b"lr", b"sc", b"last"), "av") | {b"sw": "avv", b"un": "a", b"mb": "", b"stbar": ""}
LOADS, STORES = (b"ld", b"lr"), (b"st", b"wr", b"sc")
MOST_PROCESSOR, MOST_WAITING, MOST_SHOWN = 4095, 4096, 10


class Refused(Exception):
    """A text is refused: its name is the argument."""


def number_of(token):
    """The number that a token spells, below 2^64."""
    if HEXADECIMAL.fullmatch(token):
        value = int(token[2:], 16)
    elif DECIMAL.fullmatch(token):
        value = int(token)
    else:
        raise Refused("BadNumber")
    if value >= 2**64:
        raise Refused("BadNumber")
    return value


@dataclass(frozen=True)
class Place:
    """A location, where the width is 0, or some bytes."""

    address: int
    width: int

    def cells(self):
        """The addresses of its bytes, or its own."""
        return range(self.address, self.address + max(1, self.width))

    def parts(self, value):
        """What each cell holds of a value."""
        return [value] if self.width == 0 else list(value.to_bytes(self.width, "little"))

    def whole(self, parts):
        """The value of which the cells hold these parts."""
        return parts[0] if self.width == 0 else int.from_bytes(bytes(parts), "little")


@dataclass
class Line:
    """A line that isn't a note: its number, its text, and what it says."""

    number: int
    text: bytes
    processor: int = -1
    kind: bytes = b""
    place: Place | None = None
    values: list = field(default_factory=list)


class Lines:
    """The lines of a text, one after the other; it knows which kind of places they have."""

    def __init__(self):
        self.widths = None
        self.seen = set()

    def place(self, token):
        """The place that a token spells."""
        address, slash, width = token.partition(b"/")
        place = Place(number_of(address), number_of(width) if slash else 0)
        if slash and (place.width not in (1, 2, 4, 8) or place.address + place.width > 2**64):
            raise Refused("BadNumber")
        if self.widths not in (None, bool(slash)):
            raise Refused("MixedWidths")
        self.widths = bool(slash)
        return place

    def arguments(self, line, kinds, tokens):
        """Reads a place and values of it."""
        for kind in kinds:
            if not tokens:
                raise Refused("BadLine")
            token = tokens.pop(0)
            if kind == "a":
                line.place = self.place(token)
                continue
            value = number_of(token)
            if line.place.width and value >= 256**line.place.width:
                raise Refused("BadNumber")
            line.values.append(value)
        if tokens:
            raise Refused("BadLine")

    def step(self, line, tokens):
        """Reads a line of a processor."""
        try:
            line.processor = number_of(tokens.pop(0))
        except Refused:
            raise Refused("BadLine") from None
        if line.processor > MOST_PROCESSOR:
            raise Refused("BadNumber")
        line.kind = tokens.pop(0) if tokens else b""
        if line.kind == b"dr":
            self.arguments(line, "av"[: len(tokens)], tokens)
        elif line.kind in ARGUMENTS:
            self.arguments(line, ARGUMENTS[line.kind], tokens)
        else:
            raise Refused("BadLine")

    def read(self, number, text):
        """What a line says; None where it is a note."""
        if b"end" in self.seen or not text.isascii():
            raise Refused("BadLine")
        if text.startswith(b"#"):
            return None
        line, said = Line(number, text), text.partition(b" #")[0]
        tokens = said.split(b" ")
        if said in (b"model pso", b"end"):
            line.kind = tokens[0]
        elif tokens[0] == b"init":
            line.kind = tokens.pop(0)
            self.arguments(line, "av", tokens)
        else:
            self.step(line, tokens)
        before = self.seen if line.kind == b"model" else self.seen - {b"model", b"init"} if line.kind == b"init" else ()
        if before:
            raise Refused("BadLine")
        self.seen.add(line.kind)
        return line


@dataclass
class Waiting:
    """A store that waits, and how many STBARs of its processor came before it."""

    line: Line
    stbars: int


class Run:
    """The machine, and what was found of the lines so far."""

    def __init__(self):
        self.pso, self.memory, self.buffers, self.stbars, self.reserved = False, {}, {}, {}, {}
        self.counts = dict.fromkeys(("operations", "loads", "stores", "swaps", "unknown"), 0)
        self.processors, self.refusals, self.compared = set(), [], False

    def refuse(self, line, kind, facts):
        """Notes that a line is no step."""
        self.refusals.append((kind, [f"line {line.number} ".encode() + line.text, *facts]))

    def seen(self, processor, cell):
        """The part of a value in a cell, and where it is from; None where that isn't known."""
        for store in reversed(self.buffers.get(processor, [])):
            if cell in store.line.place.cells():
                place = store.line.place
                return place.parts(store.line.values[-1])[cell - place.address], named(store.line, b"waiting")
        return self.memory.get(cell, (0, [b"first"]))

    def compare(self, line, processor, said):
        """Compares what is seen at the line's place with the value that it says."""
        seen = [self.seen(processor, cell) for cell in line.place.cells()]
        if None in seen:
            self.counts["unknown"] += 1
            return
        self.compared = True
        has = line.place.whole([part for part, _ in seen])
        if has != said:
            origins = []
            for _, origin in seen:
                if origin not in origins:
                    origins.append(origin)
            self.refuse(line, b"Value", [b"has %d" % has, *(fact for origin in origins for fact in origin)])

    def reach(self, line, store):
        """A store reaches memory at a line, and takes the reservations of other processors."""
        origin = named(store, b"reached %d" % line.number)
        for cell, part in zip(store.place.cells(), store.place.parts(store.values[-1])):
            self.memory[cell] = (part, origin)
        for processor, (place, taken) in self.reserved.items():
            if processor != store.processor and taken is None and shared(place, store.place):
                self.reserved[processor] = (place, origin)

    def empty(self, line):
        """The line completes while nothing of its processor waits: what does is refused, and reaches memory."""
        waiting = self.buffers.pop(line.processor, [])
        if waiting:
            self.refuse(line, b"Waiting", named(waiting[0].line))
        for store in waiting:
            self.reach(line, store.line)

    def drain(self, line):
        """The oldest store that waits, at the place if one is said, reaches memory."""
        waiting = self.buffers.get(line.processor, [])
        places = [k for k, store in enumerate(waiting) if line.place in (None, store.line.place)]
        if not places:
            self.refuse(line, b"NothingWaits", [])
            return
        store = waiting.pop(places[0])
        passed = [
            other
            for other in waiting[: places[0]]
            if not self.pso or shared(other.line.place, store.line.place) or other.stbars != store.stbars
        ]
        if passed:
            self.refuse(line, b"Order", [*named(store.line, b"after"), *named(passed[0].line)])
        if line.values:
            self.compared = True
            if line.values[0] != store.line.values[-1]:
                self.refuse(line, b"Value", [b"has %d" % store.line.values[-1], *named(store.line, b"waiting")])
        self.reach(line, store.line)

    def store_reserved(self, line):
        """A store on a reservation."""
        self.empty(line)
        place, taken = self.reserved.pop(line.processor, (None, None))
        if place is None or any(cell not in place.cells() for cell in line.place.cells()):
            self.refuse(line, b"NoReservation", [])
        elif taken:
            self.refuse(line, b"Reservation", taken)
        self.reach(line, line)

    def last(self, line):
        """What memory holds in the end."""
        for _, waiting in sorted(self.buffers.items()):
            stores = [store for store in waiting if shared(store.line.place, line.place)]
            if stores:
                self.refuse(line, b"Waiting", named(stores[0].line))
                break
        self.compare(line, None, line.values[0])

    def enter(self, line):
        """A store waits."""
        waiting = self.buffers.setdefault(line.processor, [])
        if len(waiting) == MOST_WAITING:
            raise Refused("TooManyWaiting")
        waiting.append(Waiting(line, self.stbars.get(line.processor, 0)))

    def count(self, line):
        """Counts a line of a processor."""
        self.processors.add(line.processor)
        self.counts["operations"] += line.kind not in (b"dr", b"un", b"last")
        self.counts["loads"] += line.kind in LOADS
        self.counts["stores"] += line.kind in STORES
        self.counts["swaps"] += line.kind == b"sw"

    def step(self, line):
        """Does what a line of a processor says."""
        kind = line.kind
        self.count(line)
        if kind in LOADS:
            self.compare(line, line.processor, line.values[0])
            if kind == b"lr":
                self.reserved[line.processor] = (line.place, None)
        elif kind == b"stbar":
            self.stbars[line.processor] = self.stbars.get(line.processor, 0) + 1
        elif kind == b"un":
            self.memory.update(dict.fromkeys(line.place.cells()))
        elif kind in (b"mb", b"wr", b"sw"):
            self.empty(line)
            if kind == b"sw":
                self.compare(line, line.processor, line.values[0])
            if kind != b"mb":
                self.reach(line, line)
        else:
            {b"st": self.enter, b"dr": self.drain, b"sc": self.store_reserved, b"last": self.last}[kind](line)

    def accept(self, line):
        """Does what a line says."""
        if line.kind == b"model":
            self.pso = True
        elif line.kind == b"init":
            for cell, part in zip(line.place.cells(), line.place.parts(line.values[0])):
                self.memory[cell] = (part, [b"first"])
        elif line.kind != b"end":
            self.step(line)


def named(line, *facts):
    """A line as reports tell it, and what is said of it."""
    return [f"line {line.number} ".encode() + line.text, *facts]


def shared(one, other):
    """Whether two places share a cell."""
    return not set(one.cells()).isdisjoint(other.cells())


def follow(text):
    """The machine after the lines of a text; the name of its refusal and the line where it is refused."""
    run, lines, texts = Run(), Lines(), text.split(b"\n")
    for number, part in enumerate(texts, 1):
        try:
            if number == len(texts):
                if part:
                    raise Refused("BadLine")
                break
            line = lines.read(number, part)
            if line:
                run.accept(line)
        except Refused as refused:
            return run, f"REFUSED {refused} line {number}".encode()
    return run, None


def report(text):
    """The report of a text, and its status."""
    run, refused = follow(text)
    if refused:
        return b"TSO RUN 1\n" + refused + b"\n", 2
    waiting = sum(map(len, run.buffers.values()))
    counts = " ".join(f"{name} {count}" for name, count in run.counts.items())
    told = [b"TSO RUN 1", f"processors {len(run.processors)} {counts} waiting {waiting}".encode()]
    if not run.refusals:
        told += [b"RUN HOLDS"] if run.compared else [b"RUN HOLDS", b"NOTHING COMPARED"]
        return b"\n".join(told) + b"\n", 0 if run.compared else 1
    told.append(b"RUN REFUSED")
    for number, (kind, facts) in enumerate(run.refusals[:MOST_SHOWN], 1):
        told += [b"refusal %d " % number + kind, *facts]
    told.append(b"refusals %d" % len(run.refusals))
    return b"\n".join(told) + b"\n", 3


def try_examples():
    """Reads each example, and prints those whose report or status is another. The status is 1 where there is one."""
    logs = sorted(EXAMPLES.glob("*.run"))
    others = []
    for log in logs:
        wanted = log.with_suffix(".report").read_bytes(), int(log.with_suffix(".status").read_text())
        if report(log.read_bytes()) != wanted:
            others.append(log)
    for log in others:
        print(f"run_reading: {log}: another report")
    return 1 if others or not logs else 0


def main():
    """Prints a report, or tries the examples."""
    if sys.argv[1:] == ["--examples"]:
        return try_examples()
    text = pathlib.Path(sys.argv[1]).read_bytes() if sys.argv[1:] else sys.stdin.buffer.read()
    said, status = report(text)
    sys.stdout.buffer.write(said)
    return status


if __name__ == "__main__":
    sys.exit(main())
