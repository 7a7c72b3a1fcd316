"""Reads litmus tests in the format of herd7: what stands in a test, its condition, and what that says of a final state.

A place of a final state is a register, as (0, "EAX"), or a location, as "x". A value is a number, or the name of a location where
it is an address."""

from __future__ import annotations

import re
from typing import NamedTuple

# The words with which what comes after the code begins; of the last ones nothing is translated.
TAIL_WORDS = ("locations", "exists", "~exists", "forall", "filter", "observed", "final", "with", "not")
QUANTIFIERS = {"exists": "Allowed", "~exists": "Forbidden", "forall": "Required"}
TAIL = re.compile(rf"\s*(?:{'|'.join(TAIL_WORDS)}|~\s*exists)(?![\w.])")
TOKEN = re.compile(r"\s*(~\s*exists\b|/\\|\\/|=>|[~()\[\];:=]|%?[A-Za-z_][\w.]*|-?0[xX][0-9a-fA-F]+|-?[0-9]+|\S)")
NUMBER = re.compile(r"-?(?:0[xX][0-9a-fA-F]+|[0-9]+)")
NAME = re.compile(r"%?[A-Za-z_][\w.]*")
# One initial value: types before it, the register's processor, the place and its value, or a place without one.
INITIAL = re.compile(r"(?:[A-Za-z_]\w*\s+)*\**\s*(?:(\d+)\s*:\s*)?(?:\[\s*([A-Za-z_][\w.]*)\s*\]|(%?[A-Za-z_][\w.]*))\s*(?:=\s*&?\s*(-?\w+))?")
COMMENT = re.compile(r"\(\*.*?\*\)", re.DOTALL)


class Untranslatable(Exception):
    """What can't be translated: the line, and why."""

    def __init__(self, line, why):
        super().__init__(line, why)
        self.line, self.why = line, why


class Instruction(NamedTuple):
    """A cell of the code: its line, and its text without spaces at the ends."""

    line: int
    text: str


class Test(NamedTuple):
    """A litmus test. Initial values, and the locations that are to be shown, each have their line."""

    architecture: str
    name: str
    initial: list
    columns: list
    locations: list
    quantifier: str
    proposition: tuple


class Tokens:
    """The words of what comes after the code, with their lines; the last one is empty."""

    def __init__(self, text, line):
        self.words, at = [], 0
        while found := TOKEN.match(text, at):
            self.words.append((re.sub(r"\s", "", found[1]), line + text.count("\n", 0, found.start(1))))
            at = found.end()
        self.words.append(("", line + text.count("\n")))
        self.place = 0

    def next(self):
        """The next word, which stays."""
        return self.words[self.place][0]

    def line(self):
        """The line of the next word."""
        return self.words[self.place][1]

    def take(self, *wanted):
        """Takes the next word, which has to be one of these if any are given."""
        word = self.next()
        if wanted and word not in wanted or not word:
            raise Untranslatable(self.line(), f"{word or 'the end'!r} where {' or '.join(wanted) or 'more'} has to stand")
        self.place += 1
        return word

    def took(self, *words):
        """Whether the next word is one of these; it is taken then."""
        if self.next() not in words:
            return False
        self.place += 1
        return True


def number_of(word):
    """The number that a word spells, in decimal or after 0x."""
    digits = word.lstrip("-")
    number = int(digits, 16) if digits[:2] in ("0x", "0X") else int(digits)
    return -number if word.startswith("-") else number


def value_of(word, line):
    """The value that a word spells: a number, or the name of a location."""
    if NUMBER.fullmatch(word):
        return number_of(word)
    if NAME.fullmatch(word):
        return word
    raise Untranslatable(line, f"no value: {word!r}")


def read_place(tokens):
    """A register or a location, the location with or without brackets."""
    if tokens.took("["):
        name = tokens.take()
        tokens.take("]")
        return name
    line, word = tokens.line(), tokens.take()
    if word.isdecimal():
        tokens.take(":")
        return int(word), tokens.take()
    if not NAME.fullmatch(word):
        raise Untranslatable(line, f"no register or location: {word!r}")
    return word


def read_primary(tokens):
    """An equation, a constant, a negation, or a proposition in parentheses."""
    if tokens.took("~", "not"):
        return "not", read_primary(tokens)
    if tokens.took("("):
        inner = read_implication(tokens)
        tokens.take(")")
        return inner
    if tokens.next() in ("true", "false"):
        return (tokens.take(),)
    line = tokens.line()
    place = read_place(tokens)
    tokens.take("=")
    return "is", place, value_of(tokens.take(), tokens.line()), line


def read_joined(tokens, sign, kind, read_part):
    """Propositions joined by a sign."""
    parts = [read_part(tokens)]
    while tokens.took(sign):
        parts.append(read_part(tokens))
    return parts[0] if len(parts) == 1 else (kind, parts)


def read_disjunction(tokens):
    """Conjunctions joined by `\\/`."""
    return read_joined(tokens, "\\/", "or", lambda rest: read_joined(rest, "/\\", "and", read_primary))


def read_implication(tokens):
    """A proposition: `=>` binds the least, then `\\/`, then `/\\`."""
    left = read_disjunction(tokens)
    return ("implies", left, read_implication(tokens)) if tokens.took("=>") else left


def read_tail(tokens):
    """The locations that are to be shown, with their lines, the quantifier and the proposition."""
    locations = []
    if tokens.took("locations"):
        tokens.take("[")
        while not tokens.took("]"):
            line = tokens.line()
            locations.append((line, read_place(tokens)))
            if not tokens.took(";"):
                tokens.take("]")
                break
    line = tokens.line()
    quantifier = tokens.take()
    if quantifier not in QUANTIFIERS:
        raise Untranslatable(line, f"{quantifier!r} where {', '.join(QUANTIFIERS)} or locations has to stand")
    proposition = read_implication(tokens)
    if tokens.next():
        raise Untranslatable(tokens.line(), f"{tokens.next()!r} after the condition")
    return locations, quantifier, proposition


def read_initial(text, line):
    """The initial values between the braces: lines, places and values; without a value it is 0."""
    found = []
    for part in re.finditer(r"[^;]+", text):
        words = part[0].strip()
        if not words:
            continue
        at = line + text.count("\n", 0, part.start() + len(part[0]) - len(part[0].lstrip()))
        match = INITIAL.fullmatch(words)
        if not match:
            raise Untranslatable(at, f"no initial value: {words!r}")
        processor, bracketed, name, value = match.groups()
        place = bracketed or (name if processor is None else (int(processor), name))
        found.append((at, place, 0 if value is None else value_of(value, at)))
    return found


def read_columns(lines, first):
    """The instructions of each processor, from the lines of the code, of which this is the number of the first."""
    columns = None
    for line, text in enumerate(lines, first):
        if not text.strip():
            continue
        if not text.rstrip().endswith(";"):
            raise Untranslatable(line, "no ; at the end of a line of code")
        cells = [cell.strip() for cell in text.strip()[:-1].split("|")]
        if columns is None:
            if cells != [f"P{number}" for number in range(len(cells))]:
                raise Untranslatable(line, f"no line of processors P0 | P1 ..: {text.strip()!r}")
            columns = [[] for _ in cells]
        elif len(cells) > len(columns):
            raise Untranslatable(line, "more columns than processors")
        else:
            for column, cell in zip(columns, cells):
                column += [Instruction(line, cell)] if cell else []
    return columns or []


def read_test(text):
    """The litmus test that a text spells."""
    text = COMMENT.sub(lambda found: re.sub(r"[^\n]", " ", found[0]), text)
    header = re.match(r"\s*(\S+)[ \t]+(\S[^\n]*)\n", text)
    if not header:
        raise Untranslatable(1, "no line with an architecture and a name")
    opening = text.find("{", header.end())
    closing = text.find("}", opening)
    if opening < 0 or closing < 0:
        raise Untranslatable(1 + text.count("\n"), "no initial state in braces")
    rest = text[closing + 1:].split("\n")
    first = 1 + text.count("\n", 0, closing)
    tail = next((number for number, line in enumerate(rest) if TAIL.match(line)), len(rest))
    initial = read_initial(text[opening + 1:closing], 1 + text.count("\n", 0, opening))
    columns = read_columns(rest[:tail], first)
    return Test(header[1], header[2].strip(), initial, columns, *read_tail(Tokens("\n".join(rest[tail:]), first + tail)))


def equations_of(proposition):
    """The equations of a proposition, each with its line."""
    kind, *parts = proposition
    if kind == "is":
        yield proposition
    for part in parts[0] if kind in ("and", "or") else parts if kind in ("not", "implies") else ():
        yield from equations_of(part)


def with_places(proposition, place_of):
    """A proposition with other places in its equations: what this says of their lines and places."""
    kind, *parts = proposition
    if kind == "is":
        place, value, line = parts
        return "is", place_of(line, place), value, line
    if kind in ("and", "or"):
        return kind, [with_places(part, place_of) for part in parts[0]]
    return (kind, *(with_places(part, place_of) for part in parts))


def holds(proposition, state):
    """Whether a proposition holds of a final state, which has the values of its places."""
    kind, *parts = proposition
    if kind == "is":
        return state[parts[0]] == parts[1]
    if kind in ("and", "or"):
        return (all if kind == "and" else any)(holds(part, state) for part in parts[0])
    if kind == "not":
        return not holds(parts[0], state)
    return not holds(parts[0], state) or holds(parts[1], state) if kind == "implies" else kind == "true"


def place_text(place):
    """A place as herd7 prints it."""
    return f"[{place}]" if isinstance(place, str) else f"{place[0]}:{place[1]}"


def proposition_text(proposition, within=0):
    """A proposition as herd7 prints it, in parentheses where it stands within one whose sign binds more."""
    kind, *parts = proposition
    if kind == "is":
        return f"{place_text(parts[0])}={parts[1]}"
    if kind == "not":
        return f"not ({proposition_text(parts[0])})"
    if kind in ("true", "false"):
        return kind
    binding, sign = {"and": (3, " /\\ "), "or": (2, " \\/ "), "implies": (1, " => ")}[kind]
    text = sign.join(proposition_text(part, binding) for part in (parts if kind == "implies" else parts[0]))
    return f"({text})" if within >= binding else text
