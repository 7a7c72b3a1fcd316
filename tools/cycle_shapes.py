"""The shape of a small trace's violation: the cycle that the program names, as `explain` says it in its first line and
`draw --edges field` draws it, with its edges named as the tool diy names them, and the barriers and swaps that keep program order on
it. It is what tools/sort-violations sorts by."""

from __future__ import annotations

import re
from typing import NamedTuple

UNWRITTEN = "unwritten"
SELF = "self"
TORN = "torn"
PROGRAM = ("Po", "Membar", "Stbar", "Swap")
PLAIN = {UNWRITTEN: "value that nothing wrote", SELF: "swap that reads its own value", TORN: "atomicity of a swap"}
# Cycles of communication alone, by which another store is between a swap's load and its store, or a swap reads what it stores.
OF_SWAPS = {"Fre Fre": TORN, "Coe Fre": TORN, "Rfi": SELF}
# The cycles of known litmus tests, in any rotation. Barriers and swaps on them are told apart afterwards.
TESTS = {
    "PodWR Fre PodWR Fre": "SB", "PodWW Rfe PodRR Fre": "MP", "PodRW Rfe PodRW Rfe": "LB", "PodWW Rfe PodRW Coe": "S",
    "PodWW Coe PodWR Fre": "R", "PodWW Coe PodWW Coe": "2+2W", "Rfe PodRW Rfe PodRR Fre": "WRC", "Rfe PodRW Rfe PodRW Coe": "WWC",
    "Rfe PodRR Fre PodWR Fre": "RWC", "Rfe PodRW Coe PodWR Fre": "WRW+WR", "Rfe PodRR Fre PodWW Coe": "WRR+2W",
    "Rfe PodRW Coe PodWW Coe": "WRW+2W", "Rfe PodRR Fre Rfe PodRR Fre": "IRIW", "Rfe PodRR Fre Rfe PodRW Coe": "IRRWIW",
    "Rfe PodRW Coe Rfe PodRW Coe": "IRWIW", "PodWW Rfe PodRW Rfe PodRR Fre": "ISA2", "PodWW Rfe PodRR Fre PodWR Fre": "W+RWC",
    "PodWW Rfe PodRW Coe PodWR Fre": "Z6.0", "PodWW Coe PodWW Rfe PodRW Coe": "Z6.1", "PodWW Rfe PodRW Rfe PodRW Coe": "Z6.2",
    "PodWW Coe PodWW Rfe PodRR Fre": "Z6.3", "PodWW Coe PodWR Fre PodWR Fre": "Z6.4", "PodWW Coe PodWW Coe PodWR Fre": "Z6.5",
    "PodWR Fre PodWR Fre PodWR Fre": "3.SB", "PodRW Rfe PodRW Rfe PodRW Rfe": "3.LB", "PodWW Coe PodWW Coe PodWW Coe": "3.2W",
    "Rfe PosRR Fre": "CoRR", "PosWW Coi": "CoWW", "PosRW Rfi": "CoRW1", "Rfe PosRW Coe": "CoRW2", "PosWR Fri": "CoWR",
    "PosRW Rfe PosRW Rfe": "n4b"}
# In a picture: where a processor's events begin; an event, its operation and half, and what its edges are; an edge of the cycle.
COLUMN = re.compile(r"  p\d+ \[")
EVENT = re.compile(r"  e(\d+) \[label=<(ld|st|sw) (\d+) [\d ]+?(load |store )?\(\d+\)(.*)>, pos=")
EDGE = re.compile(r'  (init|e\d+) -> (init|e\d+) \[color="#c00000", penwidth=2\.5(?:, dir=both)?\];')
NAMED = re.compile(r">([a-z]+(?: \[[a-z]+\])?) to (\d+)<")
# What keeps program order stands in brackets.
BRACKETS = re.compile(r"\[([a-z]+)\]")
KEPT_BY = {"mb": "Membar", "stbar": "Stbar", "swap": "Swap"}


class Event(NamedTuple):
    """A load (kind R) or a store (W) of an operation; a swap has two. The first values are a store of no processor."""

    processor: int
    operation: int
    kind: str
    address: int
    is_swap: bool


class Cycle(NamedTuple):
    """The events of a cycle, in order, and what the field calls the edge from each to the next."""

    events: list
    names: list


def parts_of(picture):
    """By the names of nodes the events of a picture, and by the names of its ends what the field calls an edge of the cycle."""
    events, names, processor = {"init": Event(-1, 0, "W", -1, False)}, {}, -1
    for line in picture.splitlines():
        processor += bool(COLUMN.match(line))
        found = EVENT.match(line)
        if found:
            number, word, address, half, lines = found.groups()
            kind = "R" if word == "ld" or half == "load " else "W"
            operation = int(number) - (half == "store ")
            events[f"e{number}"] = Event(processor, operation, kind, int(address), word == "sw")
            names.update({(f"e{number}", f"e{to}"): name for name, to in NAMED.findall(lines)})
    return events, names


def nodes_of(picture):
    """The names of the nodes of a picture's cycle, in order; none where it has no cycle. Of two edges, there and back, the first is
    drawn for both."""
    nodes = []
    for begin, end in EDGE.findall(picture):
        nodes += [end] if nodes[-1:] == [begin] else [begin, end]
    return nodes[:-1] if len(nodes) > 1 and nodes[0] == nodes[-1] else nodes


def cycle_of(picture):
    """The cycle of a picture; one without events where it has none, as that of a load of what nothing wrote."""
    events, names = parts_of(picture)
    nodes = nodes_of(picture)
    edges = zip(nodes, nodes[1:] + nodes[:1])
    return Cycle([events[node] for node in nodes], [names.get(edge, "") for edge in edges])


def program_edge(events, names):
    """What program order along these events of a processor is called, whose edges have these names; empty within one operation. A
    barrier or a swap keeps a store before a load at another address, or in PSO before a store."""
    first, last = events[0], events[-1]
    if first.operation == last.operation:
        return ""
    ends = first.kind + last.kind
    if first.address == last.address:
        return f"Pos{ends}"
    kept = {"WR": ("mb", "swap"), "WW": ("stbar", "mb", "swap")}.get(ends, ())
    by = {found[1] for found in map(BRACKETS.search, names) if found} | ({"swap"} if ends == "WR" and any(event.is_swap for event in events) else set())
    barrier = next((KEPT_BY[word] for word in kept if word in by), "Po")
    return f"{barrier}d{ends}"


def communication_edge(one, other, name):
    """What an edge between two processors is called, or the one that closes the cycle: from a load to a later store, from a store to a
    load that read it, or from a store to a later one."""
    kind = "Fr" if one.kind == "R" else "Rf" if name == "rf" else "Co"
    return kind + ("i" if one.processor == other.processor else "e")


def edges_of(cycle):
    """The edges of a cycle, as diy names them."""
    edges, begin, count = [], 0, len(cycle.events)
    for place, (event, name) in enumerate(zip(cycle.events, cycle.names)):
        following = cycle.events[(place + 1) % count]
        if event.processor != following.processor or place + 1 == count:
            edges.append(program_edge(cycle.events[begin: place + 1], cycle.names[begin: place]))
            edges.append(communication_edge(event, following, name))
            begin = place + 1
    return tuple(filter(None, edges))


def least_rotation(names):
    """The rotation of a cycle whose text is the least."""
    return min(names[turn:] + names[:turn] for turn in range(len(names)))


def shape_of(picture):
    """The shape of a violation by its picture: a cycle, or a key of PLAIN."""
    cycle = cycle_of(picture)
    if not cycle.events:
        return UNWRITTEN
    shape = " ".join(least_rotation(edges_of(cycle)))
    return OF_SWAPS.get(shape, shape)


def addition(names):
    """What stands in a test's name for the barriers and swaps of its program-order edges, as `+membars`."""
    words = [name[:-3].lower() for name in names if name.startswith(PROGRAM)]
    kinds = set(words) - {"po"}
    if len(kinds) == 1 and len(words) > 1 and "po" not in words:
        return f"+{words[0]}s"
    return "".join(f"+{word}" for word in words if word != "po")


def name_of(shape):
    """The name of a known litmus test whose cycle this shape is, or what it is in plain words; empty where it has none."""
    if shape in PLAIN:
        return PLAIN[shape]
    names = tuple(shape.split(" "))
    plain = least_rotation(tuple(f"Po{name[-3:]}" if name.startswith(PROGRAM) else name for name in names))
    known = {least_rotation(tuple(cycle.split(" "))): test for cycle, test in TESTS.items()}
    return known[plain] + addition(names) if plain in known else ""
