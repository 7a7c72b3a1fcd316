"""The final states of a program, by a search through all states of the store-buffer machine: written apart from the program
`tsobench`, from docs/believe/MODEL.md and the definition of the machine, to compare `tsobench outcomes` with it."""

from __future__ import annotations

from typing import NamedTuple


class Program(NamedTuple):
    """A program. An operation is a tuple as ("st", 1, 5), ("ld", 1), ("sw", 1, 6), ("mb",) or ("stbar",)."""

    version: int
    pso: bool
    first: dict
    lists: tuple


class Entry(NamedTuple):
    """A store that waits: the place of its address among the stored ones, its value, and how many STBARs came before it."""

    place: int
    value: int
    stbars: int


class State(NamedTuple):
    """A state of the machine and of the processors: how many operations each has issued and what it read, its store buffer with
    the oldest entry first, and what memory has at the stored addresses."""

    issued: tuple
    read: tuple
    buffers: tuple
    memory: tuple


class Found(NamedTuple):
    """What a search found: how many states it reached, and the final ones, each what the processors read and what memory has."""

    reached: int
    finals: list


class TooMany(Exception):
    """More states than the limit are reached."""


def read_program(text):
    """The program that a text spells."""
    lines = [line.split(" ") for line in text.splitlines()]
    pso, first, lists = False, {}, []
    for words in lines[1:-1]:
        if words[0] == "model":
            pso = True
        elif words[0] == "init":
            first[int(words[1])] = int(words[2])
        elif words[0] == "proc":
            lists.append([])
        else:
            lists[-1].append((words[0], *map(int, words[1:])))
    return Program(int(lines[0][2]), pso, first, tuple(map(tuple, lists)))


def opening_lines(program, kind):
    """The first lines of the text of a program or a trace."""
    return [f"tso {kind} {program.version}", *(["model pso"] if program.pso else []),
            *(f"init {address} {value}" for address, value in sorted(program.first.items()))]


def program_text(program):
    """The text of a program."""
    lines = opening_lines(program, "program")
    for operations in program.lists:
        lines += ["proc", *(" ".join(map(str, operation)) for operation in operations)]
    return "\n".join([*lines, "end", ""])


def trace_text(program, read):
    """The text of the trace of a program whose processors read these values."""
    lines = opening_lines(program, "trace")
    for operations, values in zip(program.lists, read):
        lines.append("proc")
        rest = iter(values)
        for name, *numbers in operations:
            if name in ("ld", "sw"):
                numbers.insert(1, next(rest))
            lines.append(" ".join(map(str, (name, *numbers))))
    return "\n".join([*lines, "end", ""])


def stored_addresses(program):
    """The addresses that a program stores to, in ascending order."""
    return sorted({operation[1] for operations in program.lists for operation in operations if operation[0] in ("st", "sw")})


def replaced(items, place, item):
    """A tuple with another item at a place."""
    return items[:place] + (item,) + items[place + 1:]


class Machine:
    """The store-buffer machine of a program's memory model, and the program that its processors issue."""

    def __init__(self, program):
        self.program = program
        self.place = {address: place for place, address in enumerate(stored_addresses(program))}
        self.stbars = [[sum(earlier[0] == "stbar" for earlier in operations[:number]) for number in range(len(operations))]
                       for operations in program.lists]

    def first_state(self):
        """Nothing is issued, no store waits, and memory has the first values."""
        nothing = ((),) * len(self.program.lists)
        memory = tuple(self.program.first.get(address, 0) for address in self.place)
        return State((0,) * len(nothing), nothing, nothing, memory)

    def is_final(self, state):
        """All is issued, and no store waits."""
        return not any(state.buffers) and all(count == len(operations) for count, operations in zip(state.issued, self.program.lists))

    def seen(self, state, processor, address):
        """What a processor reads at an address: its newest store there that waits, or else what memory has."""
        place = self.place.get(address)
        if place is None:
            return self.program.first.get(address, 0)
        for entry in reversed(state.buffers[processor]):
            if entry.place == place:
                return entry.value
        return state.memory[place]

    def issue(self, state, processor):
        """The state after a processor's next operation; None where it has none, or it has to wait."""
        number, operations = state.issued[processor], self.program.lists[processor]
        if number == len(operations):
            return None
        name, *numbers = operations[number]
        buffer = state.buffers[processor]
        if name in ("sw", "mb") and buffer:
            return None
        issued, read, buffers, memory = replaced(state.issued, processor, number + 1), state.read, state.buffers, state.memory
        if name in ("ld", "sw"):
            value = self.seen(state, processor, numbers[0])
            read = replaced(read, processor, read[processor] + (value,))
        if name == "sw":
            memory = replaced(memory, self.place[numbers[0]], numbers[1])
        if name == "st":
            entry = Entry(self.place[numbers[0]], numbers[1], self.stbars[processor][number])
            buffers = replaced(buffers, processor, buffer + (entry,))
        return State(issued, read, buffers, memory)

    def may_drain(self, buffer, number):
        """Whether an entry of a store buffer may go to memory: the oldest one may; under PSO so may another, if no older one has
        its address, and none waits that came after fewer STBARs."""
        if number == 0:
            return True
        entry = buffer[number]
        return (self.program.pso and all(older.place != entry.place for older in buffer[:number])
                and all(entry.stbars <= other.stbars for other in buffer))

    def drains(self, state, processor):
        """The states after each drain of a processor."""
        buffer = state.buffers[processor]
        for number, entry in enumerate(buffer):
            if self.may_drain(buffer, number):
                rest = buffer[:number] + buffer[number + 1:]
                yield state._replace(buffers=replaced(state.buffers, processor, rest), memory=replaced(state.memory, entry.place, entry.value))

    def steps(self, state):
        """The states after each step."""
        for processor in range(len(self.program.lists)):
            after = self.issue(state, processor)
            if after is not None:
                yield after
            yield from self.drains(state, processor)


def numbers_of(final):
    """What is read, by processor, and then what memory has: the order of final states is that of these lists."""
    read, memory = final
    return [*(value for values in read for value in values), *memory]


def search(program, limit=None):
    """All states that the machine reaches, and the final ones in ascending order. Raises TooMany past the limit, if there is one."""
    machine = Machine(program)
    reached, waiting, finals = {machine.first_state()}, [machine.first_state()], []
    while waiting:
        state = waiting.pop()
        if machine.is_final(state):
            finals.append((state.read, state.memory))
        for after in machine.steps(state):
            if after not in reached:
                reached.add(after)
                waiting.append(after)
        if limit is not None and len(reached) > limit:
            raise TooMany
    return Found(len(reached), sorted(finals, key=numbers_of))


def read_part(read):
    """The values read, as `0:0=1; 1:0=0;`, in parts."""
    return [f"{processor}:{number}={value};" for processor, values in enumerate(read) for number, value in enumerate(values)]


def states_text(program, finals):
    """What `tsobench outcomes --states` prints."""
    addresses = stored_addresses(program)
    lines = [f"States {len(finals)}"]
    for read, memory in finals:
        lines.append(" ".join([*read_part(read), *(f"[{address}]={value};" for address, value in zip(addresses, memory))]))
    return "\n".join([*lines, ""])


def reads_of(finals):
    """What processors read, each once, in ascending order."""
    return sorted({read for read, _ in finals}, key=lambda read: numbers_of((read, ())))


def traces_text(program, finals):
    """What `tsobench outcomes` prints."""
    return "".join(trace_text(program, read) for read in reads_of(finals))
