"""The refusals of runs, as `tsobench follow --format json` prints them, a run in a line: sorted into groups of one kind, of the same
processors and of the same tags, and the page of them, which stands alone."""

from __future__ import annotations

import collections
import html
import json
import re
from typing import NamedTuple

import violations_page

# When a line came, as a tag says it: it is another in each run.
TIME = re.compile(r"\b(?:cycle|time) ?[0-9]+\b")


class Failure(Exception):
    """Why there is no result."""


class Refusal(NamedTuple):
    """A refusal of a run: the number of the run, and what `follow` says of the refusal."""

    run: int
    said: dict

    def stores(self):
        """The stores that it names, with what is said of each; a first value is one without a text."""
        return self.said.get("origins", [self.said[name] for name in ("store", "after") if name in self.said])

    def lines(self):
        """The lines of the report that say it."""
        lines = [f"refusal {self.said['refusal']} {self.said['kind']}", line_of(self.said)]
        lines += [f"has {self.said['has']}"] if "has" in self.said else []
        for place, store in enumerate(self.stores()):
            lines += ["after"] if place and "after" in self.said else []
            lines += [line_of(store)] if "text" in store else ["first"]
            lines += ["waiting"] if "waiting" in store else [f"reached {store['reached']}"] if "reached" in store else []
        return "".join(f"{line}\n" for line in lines)

    def processors(self):
        """The processor of the line, and those of the stores."""
        others = [f"store of {processor_of(store['text'])}" if "text" in store else "first value" for store in self.stores()]
        return ", ".join([f"processor {processor_of(self.said['text'])}", *dict.fromkeys(others)])

    def tags(self):
        """The tags of the line and of the stores, without times."""
        return "; ".join(filter(None, map(tag_of, [self.said, *self.stores()])))

    def place(self):
        """Which refusal of which run it is."""
        return f"refusal {self.said['refusal']} of run {self.run}"


class Group(NamedTuple):
    """The refusals of one kind, of the same processors and tags, in order."""

    kind: str
    processors: str
    tags: str
    refusals: list

    @property
    def positions(self):
        return [(refusal.run, refusal.said["refusal"]) for refusal in self.refusals]


def line_of(said):
    return f"line {said['line']} {said['text']}"


def processor_of(text):
    return text.split(" ", 1)[0]


def tag_of(said):
    """What the tag of a line says beside the time."""
    return " ".join(TIME.sub("", said.get("text", "").partition(" #")[2]).split())


def is_of_runs(path):
    """Whether a stream has answers of `follow`, and not traces."""
    with open(path, "rb") as file:
        return file.read(1) == b"{"


def answer_in(line):
    """The answer that a line is; None of another line."""
    try:
        answer = json.loads(line)
        shown = answer.get("shown", [])
        return answer if "report" in answer and all({"refusal", "kind", "line", "text"} <= said.keys() for said in shown) else None
    except (ValueError, AttributeError, TypeError):
        return None


def refusals_of(path, warn):
    """The refusals that the answers show. `warn` is told of runs that aren't shown whole, and of texts that are no runs."""
    refusals = []
    with open(path, encoding="utf-8", errors="replace") as file:
        for run, line in enumerate(file, 1):
            answer = answer_in(line)
            if answer is None:
                raise Failure(f"line {run} is no answer of `tsobench follow --format json`")
            shown, count = answer.get("shown", []), answer.get("refusals", 0)
            refusals += [Refusal(run, said) for said in shown]
            if count > len(shown):
                warn(f"run {run}: {len(shown)} of {count} refusals are shown: `tsobench follow --most {count}` shows all")
            if "name" in answer:
                warn(f"run {run} was refused: {answer['name']} line {answer.get('line')}")
    return refusals


def groups_of(refusals):
    """The groups, the largest first."""
    groups = collections.defaultdict(list)
    for refusal in refusals:
        groups[refusal.said["kind"], refusal.processors(), refusal.tags()].append(refusal)
    return sorted((Group(*key, found) for key, found in groups.items()), key=lambda group: (-len(group.refusals), group.positions))


def text_of(number, group, has_all):
    """What is printed of a group."""
    count, first = len(group.refusals), group.refusals[0].place()
    said = f"{count} refusals, the first is {first}" if count > 1 else f"1 refusal, {first}"
    lines = [f"group {number}: {said}: {group.kind}\n{group.processors}\n"] + ([f"tags: {group.tags}\n"] if group.tags else [])
    for refusal in group.refusals if has_all else group.refusals[:1]:
        lines += [f"{refusal.place()}:\n"] * has_all + [refusal.lines()]
    return "".join(lines) + "\n"


def section_of(number, group):
    """What the page says of a group."""
    parts = "\n".join(f"<p>{refusal.place()}:</p>\n<pre>{html.escape(refusal.lines())}</pre>" for refusal in group.refusals[1:])
    tags = f", tags <code>{html.escape(group.tags)}</code>" if group.tags else ""
    return f"""\
<section id="group-{number}">
<h2>Group {number}: {html.escape(group.kind)}</h2>
<p>{html.escape(group.processors)}{tags}. {len(group.refusals)} refusals, the first is {group.refusals[0].place()}. <a href="#groups">All groups</a></p>
<pre>{html.escape(group.refusals[0].lines())}</pre>
{violations_page.folded(f"{len(group.refusals) - 1} more refusals", parts) if parts else ""}</section>
"""


def row_of(number, group):
    return (f'<tr><td class="number"><a href="#group-{number}">{number}</a></td><td class="number">{len(group.refusals)}</td>'
            f'<td><a href="#group-{number}">{html.escape(group.kind)}</a></td><td>{html.escape(group.processors)}</td>'
            f"<td><code>{html.escape(group.tags)}</code></td><td>{group.refusals[0].place()}</td></tr>\n")


def page_of(stream, groups):
    """The page of the groups."""
    about = f"{sum(len(group.refusals) for group in groups)} refusals in {len(groups)} groups, the largest first. A group is those of one kind, \
of the same processors and of the same tags but for times. The first of a run comes where the run is none; later ones may follow from it."
    return violations_page.page_with(f"Refusals of {stream}", about, ("Group", "Refusals", "Kind", "Processors", "Tags", "First refusal"),
                                     "".join(row_of(*pair) for pair in enumerate(groups, 1)),
                                     "".join(section_of(*pair) for pair in enumerate(groups, 1)))


def write(path, stream, groups):
    """Writes the page."""
    with open(path, "w", encoding="utf-8") as file:
        file.write(page_of(violations_page.name_shown(stream), groups))
