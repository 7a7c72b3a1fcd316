"""Translates litmus tests of X86, X86_64 and RISC-V into programs of tsobench, and final states of these back.

Each store of the program has its own value, from 1 in program order, and after these come the first values other than 0; what they
stand for in the test is kept. A value of a register is a number, the name of a location, what a load of the processor read (`Load`),
or unknown (`UNKNOWN`), where it is computed from what was read."""

from __future__ import annotations

import re
from typing import NamedTuple

from litmus_texts import Untranslatable, equations_of, with_places

MOST_PROCESSORS, MOST_ADDRESSES, MOST_VALUE = 16, 256, 2**31 - 1
UNKNOWN = object()
STATE_PART = re.compile(r"(?:([0-9]+):([0-9]+)|\[([0-9]+)\])=([0-9]+);")
X86_REGISTERS = ("EAX", "EBX", "ECX", "EDX", "ESI", "EDI", "EBP", "ESP")
X86_64_REGISTERS = ("rax", "rbx", "rcx", "rdx", "rsi", "rdi", "rbp", "rsp", *(f"r{number}" for number in range(8, 16)))
RISCV_REGISTERS = tuple(f"x{number}" for number in range(32))
# The other names of these registers.
X86_64_NAMES = {**{f"e{name[1:]}": name for name in X86_64_REGISTERS[:8]}, **{f"r{number}d": f"r{number}" for number in range(8, 16)}}
RISCV_NAMES = dict(zip("zero ra sp gp tp t0 t1 t2 s0 s1 a0 a1 a2 a3 a4 a5 a6 a7 s2 s3 s4 s5 s6 s7 s8 s9 s10 s11 t3 t4 t5 t6".split(),
                       RISCV_REGISTERS), fp="x8")
LABEL = re.compile(r"([A-Za-z_]\w*)\s*:\s*(.*)")
BRANCH = re.compile(r"b[a-z]+\s+(?:\w+\s*,\s*)*(\w+)", re.IGNORECASE)
NOT_ONE = "its stored value depends on what it loads"


class Load(NamedTuple):
    """What one of a processor's loads and swaps reads, counted from 0."""

    number: int


class Processor:
    """A processor's registers, and its operations so far: ("ld", location), ("st", location, value), ("sw", location, value), ("mb",).
    `line` is that of the instruction which is translated."""

    def __init__(self):
        self.registers, self.operations, self.loads, self.line, self.widths = {}, [], 0, 0, set()

    def fail(self, why):
        """Ends the translation at the instruction."""
        raise Untranslatable(self.line, why)

    def get(self, register):
        """What is in a register."""
        return self.registers.get(register, 0)

    def known(self, register):
        """What is in a register that is stored."""
        value = self.get(register)
        return value if isinstance(value, (int, str)) else self.fail("a stored value that depends on a load")

    def location(self, register):
        """The location whose address is in a register."""
        value = self.get(register)
        return value if isinstance(value, str) else self.fail(f"no address of a location is in {register}")

    def load(self, register, location):
        """A load into a register; into none at all where it is None."""
        self.operations.append(("ld", location))
        self.keep(register)

    def store(self, location, value):
        """A store of a value that is known."""
        self.operations.append(("st", location, self.within(value)))

    def swap(self, register, location, value):
        """A load into a register and a store of a known value in one step."""
        self.operations.append(("sw", location, self.within(value)))
        self.keep(register)

    def within(self, value):
        """A stored value, which has to be the same number in accesses of each width."""
        if isinstance(value, int) and not 0 <= value <= MOST_VALUE:
            self.fail(f"a stored value that isn't 0 to {MOST_VALUE}: {value}")
        return value

    def keep(self, register):
        """Keeps what the last load read."""
        if register is not None:
            self.registers[register] = Load(self.loads)
        self.loads += 1

    def barrier(self):
        """A barrier between stores and loads."""
        self.operations.append(("mb",))

    def width(self, width):
        """Notes how wide an access is: they all have to be alike."""
        self.widths |= {width} if width else set()
        if len(self.widths) > 1:
            self.fail("accesses of two widths")


class X86:
    """Instructions of X86 as herd7 writes them: the destination comes first."""

    registers, names, destination = X86_REGISTERS, {}, 0
    memory = re.compile(r"\[\s*(\w+)\s*\]")
    constant = re.compile(r"\$?(-?(?:0x[0-9a-f]+|[0-9]+))", re.IGNORECASE)
    suffixes = {"": 0}
    # What has no part in the order of memory that TSO keeps.
    nothing = ("lfence", "sfence", "nop")

    def register(self, word):
        """The name of a register as it is printed; None where the word names none."""
        name = word.lstrip("%").upper()
        return name if name in self.registers else None

    def operand(self, processor, word):
        """An operand: where it is and what: a location, a register or a constant."""
        if found := self.memory.fullmatch(word):
            name = next(group for group in found.groups() if group)
            register = self.register(name)
            return "memory", processor.location(register) if register else name
        if register := self.register(word):
            return "register", register
        if found := self.constant.fullmatch(word):
            return "constant", int(found[1], 0)
        return processor.fail(f"no operand that can be translated: {word!r}")

    def translate(self, processor, text):
        """Translates an instruction."""
        lock, name, rest = re.fullmatch(r"(lock\b[ ;]*)?(\w*)\s*(.*)", text, re.IGNORECASE).groups()
        name, words = name.lower(), [word.strip() for word in rest.split(",")] if rest else []
        known = {kind + suffix: (kind, width) for kind in ("mov", "xchg") for suffix, width in self.suffixes.items()}
        if name == "mfence" and not words and not lock:
            processor.barrier()
        elif name in self.nothing and not words and not lock:
            return
        elif name in known and len(words) == 2 and (known[name][0] == "xchg" or not lock):
            destination, source = words[self.destination], words[1 - self.destination]
            processor.width(known[name][1])
            operands = self.operand(processor, destination), self.operand(processor, source)
            (self.move if known[name][0] == "mov" else self.exchange)(processor, text, *operands)
        else:
            processor.fail(f"{'a locked instruction that can' if lock else 'an instruction that can'}'t be translated: {text!r}"
                           + (f", since {NOT_ONE}" if lock or name.startswith(("xadd", "cmpxchg")) else ""))

    def move(self, processor, text, destination, source):
        """A load, a store, or what sets a register."""
        (to_kind, to), (from_kind, value) = destination, source
        if to_kind == "register" and from_kind == "memory":
            processor.load(to, value)
        elif to_kind == "register":
            processor.registers[to] = processor.get(value) if from_kind == "register" else value
        elif to_kind == "memory" and from_kind != "memory":
            processor.store(to, processor.known(value) if from_kind == "register" else value)
        else:
            processor.fail(f"an instruction that can't be translated: {text!r}")

    def exchange(self, processor, text, *operands):
        """A swap of a register and a location."""
        both = dict(operands)
        if set(both) != {"memory", "register"}:
            processor.fail(f"an instruction that can't be translated: {text!r}")
        processor.swap(both["register"], both["memory"], processor.known(both["register"]))


class X86With64Bits(X86):
    """Instructions of X86_64 as herd7 writes them: the source comes first."""

    registers, names, destination = X86_64_REGISTERS, X86_64_NAMES, 1
    memory = re.compile(r"\[\s*%?(\w+)\s*\]|0?\(\s*%?(\w+)\s*\)|(\w+)\(%rip\)")
    constant = re.compile(r"\$(-?(?:0x[0-9a-f]+|[0-9]+))", re.IGNORECASE)
    suffixes = {"": 0, "l": 4, "q": 8}

    def register(self, word):
        """The name of a register as it is printed, that of all its 64 bits; None where the word names none."""
        name = word.lstrip("%").lower()
        name = self.names.get(name, name)
        return name if name in self.registers else None


class RiscV:
    """Instructions of RISC-V."""

    registers, names = RISCV_REGISTERS, RISCV_NAMES
    widths = {"w": 4, "d": 8}
    number = r"(-?(?:0x[0-9a-f]+|[0-9]+))"
    immediate = {"addi": lambda one, other: one + other, "ori": lambda one, other: one | other,
                 "xori": lambda one, other: one ^ other, "andi": lambda one, other: one & other}
    # Of two registers with the same value too, whatever it is.
    same = {"xor": 0, "sub": 0}

    def __init__(self):
        access, atomic = r"(\w+),(?:0)?\((\w+)\)", r"(?:\.aqrl|\.aq|\.rl|\.aq\.rl)?"
        self.forms = [(re.compile(form), act) for form, act in (
            (rf"l([wd]) {access}", self.load), (rf"s([wd]) {access}", self.store), (rf"amoswap\.([wd]){atomic} (\w+),(\w+),\((\w+)\)", self.swap),
            (r"fence(?: (\w+),(\w+))?", self.fence), (r"fence\.tso|nop", lambda processor: None),
            (rf"li (\w+),{self.number}", self.set), (r"mv (\w+),(\w+)", self.copy),
            (rf"({'|'.join(self.immediate)}) (\w+),(\w+),{self.number}", self.compute), (r"(add|or|xor|sub) (\w+),(\w+),(\w+)", self.combine))]

    def register(self, word):
        """The name of a register as it is printed; None where the word names none."""
        name = self.names.get(word.lower(), word.lower())
        return name if name in self.registers else None

    def named(self, processor, word):
        """The register that a word has to name."""
        return self.register(word) or processor.fail(f"no register: {word!r}")

    def put(self, processor, word, value):
        """Sets a register, but for x0, which is always 0."""
        name = self.named(processor, word)
        if name != "x0":
            processor.registers[name] = value

    def into(self, processor, word):
        """The register that a load sets; None for x0."""
        name = self.named(processor, word)
        return None if name == "x0" else name

    def translate(self, processor, text):
        """Translates an instruction."""
        plain = re.sub(r"\s*([,()])\s*", r"\1", re.sub(r"\s+", " ", text.strip().lower()))
        for form, act in self.forms:
            if found := form.fullmatch(plain):
                return act(processor, *found.groups())
        why = f", since {NOT_ONE}" if plain.startswith(("amo", "lr.", "sc.")) and not plain.startswith("amoswap") else ""
        return processor.fail(f"an instruction that can't be translated: {text!r}{why}")

    def load(self, processor, width, to, address):
        """`lw`, `ld`."""
        processor.width(self.widths[width])
        processor.load(self.into(processor, to), processor.location(self.named(processor, address)))

    def store(self, processor, width, value, address):
        """`sw`, `sd`."""
        processor.width(self.widths[width])
        processor.store(processor.location(self.named(processor, address)), processor.known(self.named(processor, value)))

    def swap(self, processor, width, to, value, address):
        """`amoswap`: with Ztso each atomic operation acquires and releases, whatever its suffix says."""
        processor.width(self.widths[width])
        stored = processor.known(self.named(processor, value))
        processor.swap(self.into(processor, to), processor.location(self.named(processor, address)), stored)

    def fence(self, processor, before, after):
        """Under TSO a fence orders something only where it orders earlier stores before later loads."""
        for kinds in (before, after):
            if kinds is not None and not re.fullmatch("[iorw]+", kinds):
                processor.fail(f"no kinds of accesses: {kinds!r}")
        if before is None or "w" in before and "r" in after:
            processor.barrier()

    def set(self, processor, to, number):
        """`li`."""
        self.put(processor, to, int(number, 0))

    def copy(self, processor, to, value):
        """`mv`."""
        self.put(processor, to, processor.get(self.named(processor, value)))

    def compute(self, processor, name, to, value, number):
        """A value of a register and a constant."""
        one, other = processor.get(self.named(processor, value)), int(number, 0)
        kept = one if other == 0 and name != "andi" else UNKNOWN
        self.put(processor, to, self.immediate[name](one, other) if isinstance(one, int) else kept)

    def combine(self, processor, name, to, left, right):
        """A value of two registers: that of the other one where one of them is 0, as where an address only seems to depend on a load."""
        one, other = (processor.get(self.named(processor, word)) for word in (left, right))
        if name in self.same and self.named(processor, left) == self.named(processor, right):
            value = self.same[name]
        elif isinstance(one, int) and isinstance(other, int):
            value = {"add": one + other, "or": one | other, "xor": one ^ other, "sub": one - other}[name]
        else:
            value = one if other == 0 else other if one == 0 and name != "sub" else UNKNOWN
        self.put(processor, to, value)


ARCHITECTURES = {"X86": X86, "X86_64": X86With64Bits, "RISCV": RiscV}


def without_branches(column):
    """The instructions of a processor without labels, and without branches that go on with the next instruction either way."""
    left, branches = [], []
    for line, text in column:
        while label := LABEL.fullmatch(text):
            branches, text = [branch for branch in branches if branch[1] != label[1]], label[2]
        if text and branches:
            raise Untranslatable(branches[0][0], f"a branch that doesn't lead to the next instruction: to {branches[0][1]!r}")
        if branch := BRANCH.fullmatch(text):
            branches.append((line, branch[1]))
        elif text:
            left.append((line, text))
    if branches:
        raise Untranslatable(branches[0][0], f"a branch that doesn't lead to the next instruction: to {branches[0][1]!r}")
    return left


class Translation:
    """A test as a program. `text` is that of the program; `places` are what is shown of final states, in the order of herd7, and
    `proposition` is that of the condition, both with the names of registers that are printed."""

    def __init__(self, test):
        if test.architecture not in ARCHITECTURES:
            raise Untranslatable(1, f"architecture {test.architecture!r} is none of {', '.join(ARCHITECTURES)}")
        self.architecture = ARCHITECTURES[test.architecture]()
        self.processors = [Processor() for _ in test.columns]
        if len(test.columns) > MOST_PROCESSORS:
            raise Untranslatable(next((cell.line for column in test.columns for cell in column), 1), f"more than {MOST_PROCESSORS} processors")
        self.initial = {}
        for line, place, value in test.initial:
            self.set(line, self.place(line, place), value)
        for processor, column in zip(self.processors, test.columns):
            for processor.line, text in without_branches(column):
                self.architecture.translate(processor, text)
        self.proposition = with_places(test.proposition, self.place)
        named = [*((line, self.place(line, place)) for line, place in test.locations),
                 *((line, place) for _, place, _, line in equations_of(self.proposition))]
        self.places = sorted({place for _, place in named}, key=self.sorted_by)
        for line, place in named:
            self.refuse_unknown(line, place)
        self.number()

    def place(self, line, place):
        """A place with the name of its register that is printed."""
        if isinstance(place, str):
            return place
        register = self.architecture.register(place[1])
        if register is None or place[0] >= len(self.processors):
            raise Untranslatable(line, f"no register of a processor: {place[0]}:{place[1]}")
        return place[0], register

    def set(self, line, place, value):
        """Sets an initial value."""
        if isinstance(place, str):
            if isinstance(value, int) and not 0 <= value <= MOST_VALUE:
                raise Untranslatable(line, f"an initial value that isn't 0 to {MOST_VALUE}: {value}")
            self.initial[place] = value
        else:
            self.processors[place[0]].registers[place[1]] = value

    def sorted_by(self, place):
        """Registers come first, by processors, and then locations."""
        if isinstance(place, str):
            return 1, 0, 0, place
        return 0, place[0], self.architecture.registers.index(place[1]), ""

    def refuse_unknown(self, line, place):
        """Refuses a register whose last value is computed from what is loaded."""
        if not isinstance(place, str) and self.processors[place[0]].get(place[1]) is UNKNOWN:
            raise Untranslatable(line, f"{place[0]}:{place[1]} is computed from what is loaded")

    def number(self):
        """Gives locations addresses and stores values, and writes the program."""
        used = sorted({operation[1] for processor in self.processors for operation in processor.operations if operation[0] != "mb"})
        if len(used) > MOST_ADDRESSES:
            raise Untranslatable(1, f"more than {MOST_ADDRESSES} locations")
        self.addresses, self.values, lines = {name: address for address, name in enumerate(used)}, [0], []
        for processor in self.processors:
            lines.append("proc")
            for name, *rest in processor.operations:
                words = [name, *(str(self.addresses[location]) for location in rest[:1])]
                if len(rest) == 2:
                    words.append(str(len(self.values)))
                    self.values.append(rest[1])
                lines.append(" ".join(words))
        first = []
        for name in used:
            if self.initial.get(name, 0) != 0:
                first.append(f"init {self.addresses[name]} {len(self.values)}")
                self.values.append(self.initial[name])
        self.text = "\n".join([f"tso program {2 if first else 1}", *first, *lines, "end", ""])

    def final_state(self, line):
        """The values of the places in a final state of the program, which is a line that `tsobench outcomes --states` prints."""
        read, last = {}, {}
        for processor, load, address, value in STATE_PART.findall(line):
            (last if address else read)[int(address) if address else (int(processor), int(load))] = self.values[int(value)]
        state = {}
        for place in self.places:
            if isinstance(place, str):
                state[place] = last.get(self.addresses.get(place), self.initial.get(place, 0))
            else:
                value = self.processors[place[0]].get(place[1])
                state[place] = read[place[0], value.number] if isinstance(value, Load) else value
        return state
