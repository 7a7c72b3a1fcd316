"""Logs as tests take them apart, and the traces of their operations."""

from __future__ import annotations

import collections

from program_runs import Wrong, lines_of, shown


class Log:
    """A log: its lines before the operations, and what can have written each value at each address."""

    def __init__(self, lines):
        self.head = [line for line in lines if line[0] in "mi"]
        self.operations = [line.split() for line in lines[len(self.head):]]
        self.first = {words[1]: words[2] for words in map(str.split, self.head) if words[0] == "init"}
        self.writers = collections.Counter((words[2], words[-1]) for words in self.operations if words[1] in ("st", "sw"))

    def numbers(self):
        """The five numbers of the report. The logs that are drawn have no line `un`."""
        loads = [words for words in self.operations if words[1] in ("ld", "sw")]
        return (1 + max((int(words[0]) for words in self.operations), default=-1), len(self.operations), len(loads),
                sum(self.sources(words) > 1 for words in loads), 0)

    def sources(self, words):
        """How many can have written what a load read."""
        return self.writers[words[2], words[3]] + (self.first.get(words[2], "0") == words[3])

    def exchange(self, drawn, share):
        """Has one of so many loads, also of swaps, read a drawn store to its address, or the first value where there is none."""
        for words in self.operations:
            if words[1] in ("ld", "sw") and drawn.randrange(share) == 0:
                stored = sorted(value for address, value in self.writers if address == words[2])
                words[3] = drawn.choice(stored) if stored else self.first.get(words[2], "0")

    def without_loads(self, loads):
        """The operations without these loads, each a processor, an address and what it read; of swaps the stores stay."""
        left = []
        for words in self.operations:
            if words[1] not in ("ld", "sw") or (words[0], words[2], words[3]) not in loads:
                left.append(words)
            elif words[1] == "sw":
                left.append(half_of(words, "st").split())
        return left

    def text_of(self, operations):
        """The log of these operations, after the same first lines."""
        return "".join(line + "\n" for line in [*self.head, *map(" ".join, operations)]).encode()

    def alone(self, texts):
        """The log of these operations alone. Loads that read neither a first value nor what is stored here are left out; a swap's
        store stays."""
        operations = [text.split() for text in texts]
        stored = {(words[2], words[-1]) for words in operations if words[1] in ("st", "sw")}
        left = []
        for words in operations:
            if words[1] not in ("ld", "sw") or (words[2], words[3]) in stored or self.first.get(words[2], "0") == words[3]:
                left.append(" ".join(words))
            elif words[1] == "sw":
                left.append(half_of(words, "st"))
        return "".join(line + "\n" for line in [*self.head, *left]).encode()


def half_of(words, kind):
    """The load, or the store, that a swap does."""
    return f"{words[0]} {kind} {words[2]} {words[3 if kind == 'ld' else 4]}"


def texts_by_trace(texts, trace):
    """The operations that have these texts in the log, of swaps only the half that the trace has."""
    kinds = [line.split()[0].decode() for line in lines_of(trace) if line[:2] in (b"ld", b"st", b"sw", b"mb")]
    if len(kinds) != len(texts):
        raise Wrong(f"the trace of {texts} is {shown(trace)}")
    # The trace has the operations of one processor after those of another.
    kept = dict(zip(sorted(range(len(texts)), key=lambda place: int(texts[place].split()[0])), kinds))
    return [half_of(text.split(), kept[place]) if " sw " in text and kept[place] != "sw" else text for place, text in enumerate(texts)]


def log_in(path):
    """The log in a file."""
    with open(path, encoding="ascii") as file:
        return Log(file.read().splitlines())


def log_of(trace):
    """The log of a trace: its lines, with the number of the processor before each operation."""
    lines, processor = [], -1
    for line in lines_of(trace)[1:-1]:
        if line == b"proc\n":
            processor += 1
        else:
            lines.append(line if processor < 0 else b"%d %s" % (processor, line))
    return b"".join(lines)


def trace_of(log):
    """The trace of a log's operations, with the processors that have some."""
    head, lists = [], collections.defaultdict(list)
    for line in lines_of(log):
        if line[:1] in b"mi":
            head.append(line)
        else:
            processor, operation = line.split(b" ", 1)
            lists[processor].append(operation)
    return b"".join([b"tso trace 2\n", *head, *(line for operations in lists.values() for line in (b"proc\n", *operations)), b"end\n"])


def chain_of_processors(last):
    """A log without an order, by all processors up to the last: each hands a value on, and the last loads what the first replaced."""
    lines = ["0 st 0 1", "0 st 1 2"]
    for processor in range(1, last):
        lines += [f"{processor} ld {processor} {processor + 1}", f"{processor} st {processor + 1} {processor + 2}"]
    return [*lines, f"{last} ld {last} {last + 1}", f"{last} ld 0 0"]
