#!/usr/bin/env python3
"""Decides whether a small log whose places have widths has an order of its memory model, each access being one event, and draws such
logs.

It is written apart from the program and from tests/value_orders.py, whose search it uses with another memory: a load reads each byte from
the last store that has it, of those before it and its processor's earlier ones. A byte that a line `un` names may hold anything.

Run with a log on standard input it prints `order` or `no order`."""

from __future__ import annotations

import random
import sys

from value_orders import Ordering


def place_of(word):
    """The bytes of a place A/N."""
    address, width = word.split("/")
    return range(int(address, 0), int(address, 0) + int(width))


def bytes_of(place, value):
    """What a value has in each byte of a place, the lowest first."""
    return {byte: value >> 8 * index & 0xFF for index, byte in enumerate(place)}


class Access:
    """A load or a store: the processor, whether it is a load and one of a swap, its bytes with what it reads or writes there, and how many
    barriers of each kind its processor has before it."""

    def __init__(self, processor, kind, content, barriers):
        self.processor, (self.is_load, self.is_swap), self.content = processor, kind, content
        self.bars, self.stbars = barriers


class WideLog:
    """A log: whether its model is PSO, the first bytes that aren't 0, the bytes of which something isn't known, and its events."""

    def __init__(self, text):
        self.is_pso, self.first, self.unknown, lists = False, {}, set(), {}
        for words in map(str.split, text.splitlines()):
            if words[0] == "model":
                self.is_pso = words[1] == "pso"
            elif words[0] == "init":
                self.first.update(bytes_of(place_of(words[1]), int(words[2], 0)))
            elif words[1] == "un":
                self.unknown.update(place_of(words[2]))
            else:
                lists.setdefault(int(words[0]), []).append(words[1:])
        self.events = [event for processor in sorted(lists) for event in accesses_of(processor, lists[processor])]

    def keeps(self, u, v):
        """Whether the program alone puts event u before event v, both counted from 0 and u the earlier one of one processor."""
        first, second = self.events[u], self.events[v]
        if first.processor != second.processor or u >= v:
            return False
        if first.is_load:
            return True
        if second.is_load:
            return first.bars < second.bars
        return not self.is_pso or bool(first.content.keys() & second.content.keys()) or first.stbars < second.stbars


def accesses_of(processor, operations):
    """The events of a processor's operations."""
    bars = stbars = 0
    for kind, *words in operations:
        if kind == "mb":
            bars += 1
        elif kind == "stbar":
            stbars += 1
        else:
            place, values = place_of(words[0]), [int(word, 0) for word in words[1:]]
            if kind in ("ld", "sw"):
                yield Access(processor, (True, kind == "sw"), bytes_of(place, values[0]), (bars, stbars))
            if kind in ("st", "sw"):
                yield Access(processor, (False, kind == "sw"), bytes_of(place, values[-1]), (bars, stbars))


class WideOrdering(Ordering):
    """The search for an order, byte by byte."""

    def is_own(self, store, load):
        first, second = self.log.events[store], self.log.events[load]
        return not first.is_load and second.is_load and first.processor == second.processor and store < load

    def byte_read(self, load, byte, placed, memory):
        for store in self.own[load]:
            if not placed >> store & 1 and byte in self.log.events[store].content:
                return self.log.events[store].content[byte]
        return memory.get(byte, self.log.first.get(byte, 0))

    def reads(self, load, placed, memory):
        return all(byte in self.log.unknown or self.byte_read(load, byte, placed, memory) == value
                   for byte, value in self.log.events[load].content.items())

    def after_store(self, memory, event):
        return {**memory, **self.log.events[event].content}

    def may_stand(self, event, placed, memory, swap):
        if placed >> event & 1 or self.before[event] & ~placed:
            return False
        found = self.log.events[event]
        if found.is_load:
            return not (found.is_swap and swap is not None) and self.reads(event, placed, memory)
        return swap in (None, event)


def has_wide_order(text):
    """Whether a log has an order of its model in which each access is one event."""
    return WideOrdering(WideLog(text)).exists()


def split_log(text):
    """The log of the pieces of its accesses, which are cut at the boundaries of all places, without those that a line `un` names; how many
    lines are cut, and how many pieces of accesses are left out."""
    lines = [line.split() for line in text.splitlines()]
    places = [place_of(words[index_of(words)]) for words in lines if len(words) > index_of(words)]
    cuts = {bound for place in places for bound in (place.start, place.stop)}
    unknown = {byte for words in lines if words[1:2] == ["un"] for byte in place_of(words[2])}
    kept, split, left = [], 0, 0
    for words in lines:
        if len(words) <= index_of(words):
            kept.append(words)
            continue
        at = index_of(words)
        pieces = pieces_of(place_of(words[at]), cuts)
        split += len(pieces) > 1
        for piece in pieces:
            if words[1] == "un":
                continue
            if piece.start in unknown and words[0] != "init":
                left += 1
            else:
                shift = 8 * (piece.start - place_of(words[at]).start)
                values = [str(int(word, 0) >> shift & (1 << 8 * len(piece)) - 1) for word in words[at + 1:]]
                kept.append([*words[:at], str(piece.start), *values])
    return "".join(" ".join(words) + "\n" for words in kept), split, left


def index_of(words):
    """Which word of a line is its place; past the last where it has none."""
    return 9 if words[0] == "model" else 1 if words[0] == "init" else 2


def pieces_of(place, cuts):
    """The pieces of a place."""
    starts = [byte for byte in place if byte == place.start or byte in cuts]
    return [range(start, stop) for start, stop in zip(starts, [*starts[1:], place.stop])]


# ---- drawn logs

BASE, BYTES = 64, 8


def draw_place(drawn):
    width = drawn.choice((1, 2, 4, 8, 4, 2))
    start = drawn.randrange(0, BYTES - width + 1, 1 if drawn.random() < 0.15 else width)
    return BASE + start, width


def draw_value(drawn, width):
    """A value each of whose bytes is 0, 1 or 2."""
    return sum(drawn.choice((0, 0, 1, 2)) << 8 * index for index in range(width))


def draw_wide_log(seed, model="tso", operations=7):
    """A small log that is drawn: that of a machine with store buffers, where in some some loads read bytes that other stores wrote."""
    drawn = random.Random(f"wide {model} {operations} {seed}")
    processors = drawn.randrange(2, 4)
    lists = [[] for _ in range(processors)]
    for _ in range(operations):
        lists[drawn.randrange(processors)].append(draw_access(drawn, model))
    first = [(draw_place(drawn)) for _ in range(drawn.choice((0, 0, 1, 2)))]
    first = [(start, width, draw_value(drawn, width)) for start, width in first]
    memory = {}
    for start, width, value in first:
        memory.update(bytes_of(range(start, start + width), value))
    stored = [[value >> 8 * (byte - start) & 0xFF for start, width, value in first if start <= byte < start + width] for byte in range(BASE, BASE + BYTES)]
    run_byte_machine(drawn, lists, memory)
    for words in (words for operations in lists for words in operations if words[0] in ("st", "sw")):
        for byte, value in bytes_of(range(words[1], words[1] + words[2]), words[-1]).items():
            stored[byte - BASE].append(value)
    share = drawn.choice((0, 0.1, 0.25, 0.5))
    for words in (words for operations in lists for words in operations if words[0] in ("ld", "sw")):
        if drawn.random() < share:
            words[3] = sum(drawn.choice([*stored[words[1] + index - BASE], words[3] >> 8 * index & 0xFF]) << 8 * index for index in range(words[2]))
    lines = ["model pso"] if model == "pso" else []
    lines += [f"init {start}/{width} {value}" for start, width, value in first]
    steps = [f"{processor} {text_of(words)}" for processor, operations in enumerate(lists) for words in operations]
    if drawn.random() < 0.1:
        start, width = draw_place(drawn)
        steps.append(f"0 un {start}/{width}")
    return "".join(line + "\n" for line in [*lines, *steps])


def text_of(words):
    return words[0] if len(words) == 1 else " ".join([words[0], f"{words[1]}/{words[2]}", *map(str, words[3:])])


def draw_access(drawn, model):
    """An operation: its keyword, where it has a place the address and the width, and its values; a load has none yet."""
    kind = drawn.choice(["ld"] * 8 + ["st"] * 7 + ["sw"] * 3 + ["mb"] * 2 + (["stbar"] if model == "pso" else []))
    start, width = draw_place(drawn)
    value = draw_value(drawn, width)
    return {"ld": ["ld", start, width, 0], "st": ["st", start, width, value], "sw": ["sw", start, width, 0, value]}.get(kind, [kind])


def run_byte_machine(drawn, lists, memory):
    """Runs programs on a machine with store buffers that keep their order, and writes what their loads read."""
    buffers, places = [[] for _ in lists], [0] * len(lists)
    while any(place < len(operations) for place, operations in zip(places, lists)):
        processor = drawn.randrange(len(lists))
        buffer = buffers[processor]
        if buffer and drawn.random() < 0.4:
            memory.update(buffer.pop(0))
        elif places[processor] < len(lists[processor]):
            words = lists[processor][places[processor]]
            places[processor] += 1
            if words[0] in ("mb", "sw"):
                for content in buffer:
                    memory.update(content)
                buffer.clear()
            if words[0] in ("ld", "sw"):
                seen = dict(memory)
                for content in buffer:
                    seen.update(content)
                words[3] = sum(seen.get(words[1] + index, 0) << 8 * index for index in range(words[2]))
            if words[0] in ("st", "sw"):
                content = bytes_of(range(words[1], words[1] + words[2]), words[-1])
                if words[0] == "st":
                    buffer.append(content)
                else:
                    memory.update(content)


if __name__ == "__main__":
    print("order" if has_wide_order(sys.stdin.read()) else "no order")
