"""What `tsobench log --decide` may say of a log, for tests/try-values, as docs/use/FORMATS.md has it."""

from __future__ import annotations

import re
from typing import NamedTuple

import value_evidence
from program_runs import Wrong, run
from value_orders import ValueLog

DECISION = re.compile(r"TSO LOG DECISION 1\nprocessors ([0-9]+) events ([0-9]+) left ([0-9]+)\n(CONSISTENT|VIOLATION|UNDECIDED ([0-9]+))\n((?:.+\n)*)")
STATUSES = {"CONSISTENT": 0, "VIOLATION": 3, "UNDECIDED": 1}
# The status and the line of `verify --log` on the evidence of each answer.
HOLDS = {"CONSISTENT": (0, b"ORDER HOLDS\n"), "VIOLATION": (3, b"REFUTATION HOLDS\n")}


class Decision(NamedTuple):
    """What was decided of a log: the answer, and the text of the evidence for it."""

    answer: str
    evidence: str


def counts_of(text):
    """The processors of a log, its events where idle swaps are read, and the operations that are left out: none of a drawn log."""
    processors = [int(line.split()[0]) for line in text.splitlines() if line[0].isdigit()]
    return max(processors, default=-1) + 1, len(ValueLog(text, reads_idle_swaps=True).events), 0


def decide(program, text, effort):
    """The decision on a log, which has the counts of the log. Cases may be supposed as many times as effort says."""
    answer = run([program, "log", "--decide", "--effort", str(effort)], text.encode())
    found = DECISION.fullmatch(answer.output.decode())
    if not found or answer.errors:
        raise Wrong(f"log --decide: {answer}")
    said = found[4].split()[0]
    if answer.status != STATUSES[said] or tuple(map(int, found.groups()[:3])) != counts_of(text) or found[5] not in (None, str(effort)):
        raise Wrong(f"log --decide, of a log with {counts_of(text)}: {answer}")
    if (said == "UNDECIDED") != (found[6] == ""):
        raise Wrong(f"log --decide, evidence: {answer}")
    return Decision(said, found[6])


def check(text, decision):
    """The evidence for an answer holds of the log, as the checker says that was written apart."""
    if decision.answer in HOLDS:
        said = value_evidence.check(text, decision.evidence)
        if said.encode() != HOLDS[decision.answer][1]:
            raise Wrong(f"evidence for {decision.answer} of which the checker says {said!r}\n{decision.evidence}")


def verify(program, path, decision):
    """The program accepts the evidence for its answer on the log in a file."""
    if decision.answer in HOLDS:
        answer = run([program, "verify", "--log", path, "-"], decision.evidence.encode())
        if answer != (*HOLDS[decision.answer], b""):
            raise Wrong(f"verify --log says {answer} of the evidence for {decision.answer}\n{decision.evidence}")
