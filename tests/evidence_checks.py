"""A second checker of orders and refutations, and a search through all orders, written from the definitions of docs/believe/MODEL.md."""

from __future__ import annotations

from dataclasses import dataclass, field


@dataclass(frozen=True)
class Event:
    """A load or a store: its processor, what it is, and how many barriers and STBARs stand before it."""

    proc: int
    load: bool
    swap: bool
    address: int
    value: int
    bars: int
    stbars: int


@dataclass
class Trace:
    """A trace: its events, numbered from 1, and what memory holds at first."""

    pso: bool = False
    first: dict = field(default_factory=dict)
    events: list = field(default_factory=lambda: [None])

    def numbers(self):
        """The numbers of all events."""
        return range(1, len(self.events))

    def source(self, load):
        """The number that wrote what a load read: 0 for the first value, None where nothing did."""
        event = self.events[load]
        if event.value == self.first.get(event.address, 0):
            return 0
        for number in self.numbers():
            other = self.events[number]
            if not other.load and (other.address, other.value) == (event.address, event.value):
                return number
        return None

    def earlier(self, one, other):
        """Whether one event is program-earlier than the other."""
        return one < other and self.events[one].proc == self.events[other].proc


def read_trace(text):
    """The trace that a text spells."""
    trace, proc, bars, stbars = Trace(), -1, 0, 0
    for line in text.splitlines():
        words = line.split()
        if words[0] == "model":
            trace.pso = words[1] == "pso"
        elif words[0] == "init":
            trace.first[int(words[1])] = int(words[2])
        elif words[0] == "proc":
            proc, bars, stbars = proc + 1, 0, 0
        elif words[0] == "mb":
            bars += 1
        elif words[0] == "stbar":
            stbars += 1
        elif words[0] in ("ld", "st", "sw"):
            address, values, swap = int(words[1]), [int(word) for word in words[2:]], words[0] == "sw"
            if words[0] != "st":
                trace.events.append(Event(proc, True, swap, address, values[0], bars, stbars))
            if words[0] != "ld":
                trace.events.append(Event(proc, False, swap, address, values[-1], bars, stbars))
    return trace


def base_pair(trace, rule, one, other):
    """Whether a base rule gives the edge."""
    if rule == "Init":
        return one == 0 and 0 < other < len(trace.events)
    if not 0 < one < len(trace.events):
        return False
    first = trace.events[one]
    if rule == "Own":
        return not first.load and one != other and any(
            trace.events[load].load and trace.events[load].address == first.address and trace.earlier(one, load)
            and trace.source(load) == other for load in trace.numbers())
    if not 0 < other < len(trace.events):
        return False
    second = trace.events[other]
    if rule == "LoadOp":
        return first.load and trace.earlier(one, other)
    if rule == "StoreStore":
        kept = not trace.pso or first.address == second.address
        return not first.load and not second.load and trace.earlier(one, other) and kept
    if rule == "Stbar":
        return not first.load and not second.load and trace.earlier(one, other) and first.stbars < second.stbars
    if rule == "Membar":
        return not first.load and second.load and trace.earlier(one, other) and first.bars < second.bars
    if rule == "Read":
        return not first.load and second.load and trace.source(other) == one and not trace.earlier(one, other)
    return False


def path_ends(trace, rule, load, one, other):
    """The ends of the path by which an inferred rule gives the edge for a load; None where it doesn't."""
    if not 0 < load < len(trace.events) or not trace.events[load].load:
        return None
    event = trace.events[load]

    def is_store(number):
        return 0 < number < len(trace.events) and not trace.events[number].load

    if rule == "LoadPast" and is_store(one) and trace.events[one].address == event.address:
        return (one, load) if trace.source(load) == other and one != other else None
    if rule == "StorePast" and one == load and is_store(other) and trace.events[other].address == event.address:
        source = trace.source(load)
        return (source, other) if source is not None and source != other else None
    if rule == "SwapBefore" and event.swap and other == load and is_store(one) and one != load + 1:
        return one, load + 1
    if rule == "SwapAfter" and event.swap and one == load + 1 and is_store(other) and other != one:
        return load, other
    return None


def step_holds(trace, pairs, words):
    """Whether a step, of these words after its number, holds under pairs in force."""
    one, other = number_of(words[0]), number_of(words[1])
    if len(words) == 3:
        return base_pair(trace, words[2], one, other)
    load, path = number_of(words[3]), [number_of(word) for word in words[4:]]
    ends = path_ends(trace, words[2], load, one, other)
    if ends is None or len(path) < 2 or (path[0], path[-1]) != ends:
        return False
    return all(pair in pairs for pair in zip(path, path[1:]))


def number_of(word):
    """The event number that a word spells."""
    return 0 if word == "init" else int(word)


class Lines:
    """The lines of a refutation, of which the first are taken."""

    def __init__(self, text):
        self.lines = [line.split(" ") for line in text.splitlines()]
        self.place = 0
        self.number = 0

    def take(self):
        """The words of the next line, without its number."""
        words = self.lines[self.place]
        self.place += 1
        if words[0] == "cycle":
            return words
        self.number += 1
        if words[0] != str(self.number):
            raise ValueError("misnumbered")
        return words[1:]


def refutation_holds(trace, text):
    """Whether a text is a refutation that holds for a trace."""
    try:
        lines = Lines(text)
        holds = part_holds(trace, lines, frozenset())
        return holds and lines.place == len(lines.lines)
    except (ValueError, IndexError):
        return False


def part_holds(trace, lines, pairs):
    """Whether the next lines are a part of a refutation that holds under pairs in force."""
    while True:
        words = lines.take()
        if words[0] == "cycle":
            cycle = [number_of(word) for word in words[1:]]
            return bool(cycle) and all(pair in pairs for pair in zip(cycle, cycle[1:] + cycle[:1]))
        one, other = number_of(words[0]), number_of(words[1])
        if words[2] == "Case":
            events = range(1, len(trace.events))
            if one == other or one not in events or other not in events or len(words) != 3:
                return False
            if not part_holds(trace, lines, pairs | {(one, other)}):
                return False
            if lines.take() != [words[1], words[0], "Else"]:
                return False
            return part_holds(trace, lines, pairs | {(other, one)})
        if not step_holds(trace, pairs, words):
            return False
        pairs = pairs | {(one, other)}


def order_holds(trace, order):
    """Whether a list of numbers is an order that meets the axioms."""
    if sorted(order) != list(trace.numbers()):
        return False
    place = {number: at for at, number in enumerate(order)}
    for one in trace.numbers():
        for other in trace.numbers():
            kept = any(base_pair(trace, rule, one, other) for rule in ("LoadOp", "StoreStore", "Stbar", "Membar"))
            if kept and place[one] > place[other]:
                return False
    return all(load_holds(trace, place, number) for number in trace.numbers() if trace.events[number].load)


def load_holds(trace, place, load):
    """Whether a load returns what the last store that it sees wrote, and no store comes between it and its store, if it is a swap's."""
    event = trace.events[load]
    stores = [number for number in trace.numbers() if not trace.events[number].load]
    if event.swap and any(place[load] < place[store] < place[load + 1] for store in stores):
        return False
    seen = [store for store in stores if trace.events[store].address == event.address
            and (place[store] < place[load] or trace.earlier(store, load))]
    last = max(seen, key=place.get, default=None)
    value = trace.first.get(event.address, 0) if last is None else trace.events[last].value
    return value == event.value


def has_order(trace):
    """Whether some order meets the axioms, by a search through all of them, event by event."""
    kept = {other: [one for one in trace.numbers()
                    if any(base_pair(trace, rule, one, other) for rule in ("LoadOp", "StoreStore", "Stbar", "Membar"))]
            for other in trace.numbers()}
    dead = set()

    def extends(come, latest, swapping):
        if len(come) == len(trace.events) - 1:
            return True
        state = come, latest, swapping
        if state in dead:
            return False
        for number in trace.numbers():
            event = trace.events[number]
            if number in come or any(one not in come for one in kept[number]):
                continue
            if event.load:
                if event.swap and swapping or not reads_right(trace, come, dict(latest), number):
                    continue
                after = latest, number if event.swap else swapping
            else:
                if swapping and number != swapping + 1:
                    continue
                known = dict(latest)
                known[event.address] = number
                after = tuple(sorted(known.items())), 0 if swapping else swapping
            if extends(come | {number}, *after):
                return True
        dead.add(state)
        return False

    return extends(frozenset(), (), 0)


def reads_right(trace, come, latest, load):
    """Whether a load that comes next returns what the last store that it sees wrote: its own that haven't come count as later."""
    event = trace.events[load]
    own = [number for number in trace.numbers() if number not in come and not trace.events[number].load
           and trace.events[number].address == event.address and trace.earlier(number, load)]
    last = max(own) if own else latest.get(event.address)
    value = trace.first.get(event.address, 0) if last is None else trace.events[last].value
    return value == event.value
