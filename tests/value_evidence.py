#!/usr/bin/env python3
"""Checks evidence about a small log: a refutation by values, as crates/value_evidence/specs/ says which hold, or an order, by the axioms of
docs/believe/MODEL.md. Its text is read as crates/value_texts/specs/Spelling.antt says. The log's idle swaps are read as loads under TSO.

Run with a file of a log and one of evidence it prints the line of `tsobench verify --log`, and ends with its status."""

from __future__ import annotations

import sys

sys.dont_write_bytecode = True
from value_orders import ValueLog

# The kinds of lines of a refutation, and of how many events each is.
STEPS = {"read": 2, "in": 2, "out": 2, "over": 3, "after": 2, "before": 2}
CASES = {"case-read": 2, "case-before": 2}
ENDS = {"nosource": 1, "cycle": 1}
FORMS = {**STEPS, **CASES, "else": 0, **ENDS}
HOLDS = "REFUTATION HOLDS\n"
ORDER_HOLDS = "ORDER HOLDS\n"


class Unread(Exception):
    """Why a text is no evidence, and at which line."""


def names_of(log):
    """The number of the event of each name: a line, of the store of a swap with an apostrophe."""
    return {f"{event.line}'" if event.is_swap and not event.is_load else str(event.line): number
            for number, event in enumerate(log.events, start=1)}


def line_read(names, line, number):
    """The kind of a line, and the numbers of its events."""
    kind, *tokens = line.split(" ")
    if number != 1 if kind == "order" else FORMS.get(kind) != len(tokens):
        raise Unread(f"BadLine line {number}")
    numbers = [names.get(token) for token in tokens]
    if kind in ("read", "case-read") and tokens[1] == "init":
        numbers[1] = 0
    if None in numbers:
        raise Unread(f"NoEvent line {number}")
    return kind, numbers


def evidence_read(names, text):
    """The lines of evidence, each a kind and numbers of events: one of an order, or any of a refutation."""
    *lines, rest = text.split("\n")
    found = []
    for number, line in enumerate(lines, start=1):
        found.append(line_read(names, line, number))
        if found[0][0] == "order":
            if rest or number < len(lines):
                raise Unread("AfterEnd line 2")
            return found
    if rest:
        raise Unread(f"BadLine line {len(lines) + 1}")
    return found


def structure_refused(lines):
    """Why lines aren't those of a refutation; None where they are. A part is steps, and then an end or a case, which has two parts with a
    line `else` between them."""
    cases, is_part_ended = 0, False
    for number, (kind, _) in enumerate(lines, start=1):
        if (kind == "else") != is_part_ended or is_part_ended and not cases:
            return f"Misplaced line {number}"
        cases += (kind in CASES) - (kind == "else")
        is_part_ended = kind in ENDS
    return None if is_part_ended and not cases else "Unfinished"


class OrderChecker:
    """The events of a log from number 1 on, and the places of their numbers in a list."""

    def __init__(self, log, order):
        self.log, self.order = log, order
        self.events = [None, *log.events]
        self.place = {number: place for place, number in enumerate(order, start=1)}

    def earlier(self, v):
        """The earlier events of an event's processor."""
        return [u for u in range(1, v) if self.events[u].processor == self.events[v].processor]

    def is_right(self, u, v):
        return self.place[u] < self.place[v]

    def unmet(self, v):
        """The first axiom that isn't met at an event; None where all are."""
        found = self.events[v]
        earlier = [(u, self.events[u]) for u in self.earlier(v)]
        stores = [(u, store) for u, store in earlier if not store.is_load]
        asked = {
            "LoadOp": [u for u, load in earlier if load.is_load],
            "StoreStore": [u for u, store in stores if not found.is_load and (not self.log.is_pso or store.address == found.address)],
            "Stbar": [u for u, store in stores if not found.is_load and store.stbars < found.stbars],
            "Membar": [u for u, store in stores if found.is_load and store.bars < found.bars],
        }
        for axiom, before in asked.items():
            if not all(self.is_right(u, v) for u in before):
                return axiom
        if not found.is_load and any(self.is_between(v, swap) for swap in range(1, len(self.events))):
            return "Atomicity"
        return "Value" if found.is_load and self.value_read(v) != found.value else None

    def is_between(self, v, swap):
        """Whether a store is between a swap's load and its store, which is another one."""
        found = self.events[swap]
        return found.is_load and found.is_swap and v != swap + 1 and self.is_right(swap, v) and self.is_right(v, swap + 1)

    def value_read(self, v):
        """What the last store wrote that a load sees: one before it in the order, or an earlier one of its processor."""
        address = self.events[v].address
        own = self.earlier(v)
        seen = [self.place[u] for u in range(1, len(self.events))
                if not self.events[u].is_load and self.events[u].address == address and (self.is_right(u, v) or u in own)]
        return self.events[self.order[max(seen) - 1]].value if seen else self.log.first_value(address)

    def refused(self, names):
        """Why the list is no order of the log; None where it is."""
        for place, number in enumerate(self.order, start=1):
            if number in self.order[:place - 1]:
                return f"Repeated place {place}"
        for number in range(1, len(self.events)):
            if number not in self.place:
                return f"Missing event {names[number - 1]}"
        for number in self.order:
            axiom = self.unmet(number)
            if axiom:
                return f"{axiom} event {names[number - 1]}"
        return None


class Checker:
    """The events of a log from number 1 on, what comes after each of them, and the sources that steps say of loads."""

    def __init__(self, log):
        self.log = log
        self.events = [None, *log.events]
        self.numbers = range(1, len(self.events))
        self.after = [0] * len(self.events)
        self.sources = {}
        self.stores = {}
        for store in self.numbers:
            if self.is_store(store):
                self.stores.setdefault(self.events[store].address, []).append(store)
        # who wrote the value of each load to its address
        self.writers = {load: self.writers_of(load) for load in self.numbers if self.events[load].is_load}
        # what the program puts after an event comes later in it
        for u in reversed(self.numbers):
            for v in self.numbers[u:]:
                if self.log.keeps(u - 1, v - 1):
                    self.after[u] |= self.after[v] | 1 << v

    def stores_to_place_of(self, load):
        return self.stores.get(self.events[load].address, [])

    def writers_of(self, load):
        found = self.events[load]
        writers = [0] if found.value == self.log.first_value(found.address) else []
        return writers + [store for store in self.stores_to_place_of(load) if self.events[store].value == found.value]

    def is_event(self, number):
        return 1 <= number < len(self.events)

    def is_load(self, number):
        return self.is_event(number) and self.events[number].is_load

    def is_store(self, number):
        return self.is_event(number) and not self.events[number].is_load

    def is_swap(self, number):
        return self.is_load(number) and self.events[number].is_swap

    def is_same_place(self, u, v):
        return self.is_event(u) and self.is_event(v) and self.events[u].address == self.events[v].address

    def is_earlier(self, u, v):
        return self.is_event(u) and self.is_event(v) and self.events[u].processor == self.events[v].processor and u < v

    def is_before(self, u, v):
        return self.is_event(u) and self.is_event(v) and bool(self.after[u] >> v & 1)

    def put_before(self, u, v):
        """From now on u comes before v."""
        added = self.after[v] | 1 << v
        for other in self.numbers:
            if other == u or self.after[other] >> u & 1:
                self.after[other] |= added

    def sees(self, load, store):
        return (self.is_store(store) and self.is_same_place(store, load)
                and (self.is_before(store, load) or self.is_earlier(store, load)))

    def is_gone(self, load, source):
        if self.sources.get(load, set()) - {source}:
            return True
        if self.is_before(load, source) and not self.is_earlier(source, load):
            return True
        if any(self.sees(load, store) and (source == 0 or self.is_before(source, store)) for store in self.stores_to_place_of(load)):
            return True
        return self.is_swap(load) and any(self.is_swap(other) and self.is_same_place(other, load) and other != load and source in read
                                          for other, read in self.sources.items())

    def left(self, load):
        """What a load can have read."""
        return [source for source in self.writers[load] if not self.is_gone(load, source)]

    def is_up_to(self, u, v):
        return u == v or self.is_before(u, v)

    def holds(self, kind, numbers):
        """Whether a step follows."""
        if kind == "read":
            load, source = numbers
            return self.is_load(load) and all(other == source for other in self.left(load))
        if kind == "in":
            start, load = numbers
            return self.is_event(start) and self.is_load(load) and all(
                source > 0 and not self.is_earlier(source, load) and self.is_up_to(start, source) for source in self.left(load))
        if kind == "out":
            load, store = numbers
            return (self.is_load(load) and self.is_store(store) and self.is_same_place(store, load)
                    and all(source == 0 or self.is_before(source, store) for source in self.left(load)))
        if kind == "over":
            start, store, load = numbers
            return (self.is_load(load) and self.sees(load, start) and self.is_store(store) and start != store
                    and all(self.is_up_to(source, store) for source in self.left(load)))
        if kind == "after":
            swap, store = numbers
            return self.is_swap(swap) and self.is_store(store) and store != swap + 1 and self.is_before(swap, store)
        store, swap = numbers
        return self.is_swap(swap) and self.is_store(store) and store != swap + 1 and self.is_before(store, swap + 1)

    def accept(self, kind, numbers):
        """Takes a step that follows, or is supposed."""
        if kind == "read":
            self.sources.setdefault(numbers[0], set()).add(numbers[1])
        elif kind == "after":
            self.put_before(numbers[0] + 1, numbers[1])
        else:
            self.put_before(numbers[0], numbers[1])

    def ends(self, kind, number, aside):
        """Whether there is no order by this end, where these sources of loads are set aside."""
        if kind == "nosource":
            return self.is_load(number) and all((number, source) in aside for source in self.left(number))
        return self.is_before(number, number)

    def is_case(self, kind, numbers):
        first, second = numbers
        return self.is_load(first) if kind == "case-read" else self.is_event(first) and self.is_event(second) and first != second

    def first_refused(self, lines):
        """The kind of the refusal of a refutation, and its line; None where it holds."""
        aside, cases = [], []
        for number, (kind, numbers) in enumerate(lines, start=1):
            if kind in CASES:
                if not self.is_case(kind, numbers):
                    return f"CaseRefused line {number}"
                cases.append((kind, numbers, list(self.after), {load: set(read) for load, read in self.sources.items()}, aside))
                self.accept("read" if kind == "case-read" else "in", numbers)
            elif kind == "else":
                kind, numbers, self.after, self.sources, aside = cases.pop()
                if kind == "case-read":
                    aside = [*aside, tuple(numbers)]
                else:
                    self.put_before(numbers[1], numbers[0])
            elif kind in ENDS:
                if not self.ends(kind, *numbers, aside):
                    return f"EndRefused line {number}"
            elif self.holds(kind, numbers):
                self.accept(kind, numbers)
            else:
                return f"StepRefused line {number}"
        return None


def check(text, evidence):
    """The line of `verify --log` on the text of a log and one of evidence."""
    log = ValueLog(text, reads_idle_swaps=True)
    names = names_of(log)
    try:
        lines = evidence_read(names, evidence)
    except Unread as unread:
        return f"EVIDENCE REFUSED {unread}\n"
    if lines and lines[0][0] == "order":
        refused = OrderChecker(log, lines[0][1]).refused(list(names))
        return f"ORDER REFUSED {refused}\n" if refused else ORDER_HOLDS
    refused = structure_refused(lines) or Checker(log).first_refused(lines)
    return f"REFUTATION REFUSED {refused}\n" if refused else HOLDS


def status_of(line):
    """The status of `verify --log` with this line."""
    return {ORDER_HOLDS: 0, HOLDS: 3}.get(line, 2)


def main():
    with open(sys.argv[1], encoding="ascii") as log, open(sys.argv[2], encoding="latin-1", newline="") as evidence:
        line = check(log.read(), evidence.read())
    print(line, end="")
    sys.exit(status_of(line))


if __name__ == "__main__":
    main()
