"""The page of tools/sort-violations: its groups in a table, and for each its picture in words of the field, its explanation, the
picture by the explanation's steps, its reduced traces and where its violations stand in the stream. What colours and names in the
pictures say is told once. It stands alone: nothing is fetched, and there is no script in it."""

from __future__ import annotations

import concurrent.futures
import functools
import html
import os
import re
import subprocess
from typing import NamedTuple

STYLE = """\
body { font-family: sans-serif; line-height: 1.4; margin: 2em auto; max-width: 70em; padding: 0 1em; color: #222; background: #fff }
table { border-collapse: collapse }
th, td { border-bottom: 1px solid #ccc; padding: .3em .8em; text-align: left; vertical-align: top }
td.number, th.number { text-align: right }
section { border-top: 2px solid #888; margin-top: 2em }
pre { background: #f4f4f4; overflow-x: auto; padding: .6em 1em }
.sides { display: flex; flex-wrap: wrap; gap: 1em 2em; align-items: flex-start }
.sides > * { margin: 0; min-width: 0 }
svg { height: auto; max-width: 100% }
figcaption { font-size: .85em; margin-top: .8em }
figcaption ul { margin: .2em 0 0; padding-left: 1.4em }
summary { cursor: pointer }
"""
# Columns of numbers.
NUMBERS = ("Group", "Violations", "Refusals", "First")
# The caption of a picture, whose first lines are the verdict and how much is drawn; then comes what colours and names say.
CAPTION = re.compile(r'^  label="(.*?)(blue edge: .*)?";$', re.MULTILINE)


class Failure(Exception):
    """Why there is no page."""


def output_of(command, text, statuses):
    """What a command prints of a text, where it ends with one of these statuses."""
    done = subprocess.run(command, input=text, capture_output=True, check=False)
    if done.returncode not in statuses:
        name = " ".join(map(os.path.basename, command))
        raise Failure(f"{name} ended with status {done.returncode}: {os.fsdecode(done.stderr)[:200].strip()}")
    return done.stdout


class Content(NamedTuple):
    """What is shown of a reduced trace: its picture in words of the field, what that says of colours and names, the picture by steps,
    None where it is the same, and the explanation."""

    picture: str
    legend: list
    by_steps: str | None
    explanation: str


def drawn(text, prefix):
    """A text for Graphviz as an element of a page, with ids that begin so."""
    picture = output_of(["dot", "-Tsvg"], text.encode(), (0,)).decode("utf-8")
    element = re.sub(r"<!--.*?-->\n?", "", picture[picture.index("<svg"):], flags=re.DOTALL).rstrip()
    return re.sub(r'(<[a-z]+(?: [a-z:]+="[^"]*")*? id=")', rf"\g<1>{prefix}", element)


def content_of(program, numbered):
    """What is shown of the first reduced trace of a group."""
    number, group = numbered
    trace = group.traces[0][0].encode()
    in_words, by_steps = (output_of([program, "draw", "--edges", edges], trace, (3,)).decode("ascii") for edges in ("field", "rules"))
    legend = [line for line in CAPTION.search(in_words)[2].split(r"\l") if line]
    return Content(drawn(CAPTION.sub(r'  label="\1";', in_words), f"picture-{number}-"), legend,
                   None if by_steps == in_words else drawn(by_steps, f"steps-{number}-"), explanation_of(program, group.traces[0][0]))


def new_legends(contents):
    """Of each content what its legend says that none before it says."""
    told = set()
    for content in contents:
        yield [line for line in content.legend if line not in told]
        told |= set(content.legend)


def explanation_of(program, trace):
    """The explanation alone, without the report before it."""
    return output_of([program, "explain"], trace.encode(), (3,)).decode("ascii").split("\n\n", 1)[-1]


def folded(summary, content):
    return f"<details>\n<summary>{summary}</summary>\n{content}\n</details>\n"


def place_of(group, number):
    """A number in the stream, with where its trace is from, of which a file's name may have any character."""
    return html.escape(group.place(number))


def further_traces(group):
    """The reduced traces of a group but the first, folded."""
    parts = [f"<p>{len(numbers)}, the first is trace {place_of(group, numbers[0])}:</p>\n<pre>{html.escape(trace)}</pre>"
             for trace, numbers in group.traces[1:]]
    return folded(f"{len(parts)} more reduced traces of this shape", "\n".join(parts)) if parts else ""


def legend_of(lines):
    """What colours and names say, where it is told."""
    rows = "".join(f"<li>{html.escape(line)}</li>\n" for line in lines)
    return f"<figcaption>A column is a processor. What colours and names say:\n<ul>\n{rows}</ul></figcaption>" if lines else ""


def section_of(number, group, content, legend):
    """What the page says of a group."""
    trace, numbers = group.traces[0]
    by_steps = folded("The picture with the numbers of the explanation's steps", content.by_steps) if content.by_steps else ""
    positions = group.positions
    return f"""\
<section id="group-{number}">
<h2>Group {number}: {html.escape(group.name or "no known test")}</h2>
<p>Shape <code>{html.escape(group.shape)}</code>. {len(positions)} violations, the first is trace {place_of(group, positions[0])} of the stream. \
<a href="#groups">All groups</a></p>
<div class="sides">
<figure>{content.picture}{legend_of(legend)}</figure>
<div>
<h3>Reduced trace</h3>
<p>{len(numbers)} of the group's violations are reduced to it, the first is trace {place_of(group, numbers[0])}.</p>
<pre>{html.escape(trace)}</pre>
</div>
</div>
<h3>Why it can't be</h3>
<pre>{html.escape(content.explanation)}</pre>
{by_steps}{folded(f"{len(positions)} positions in the stream", f"<p>{', '.join(place_of(group, number) for number in positions)}</p>")}{further_traces(group)}</section>
"""


def row_of(number, group):
    return (f'<tr><td class="number"><a href="#group-{number}">{number}</a></td><td class="number">{len(group.positions)}</td>'
            f'<td><a href="#group-{number}">{html.escape(group.name or "no known test")}</a></td>'
            f'<td><code>{html.escape(group.shape)}</code></td><td class="number">{group.positions[0]}</td></tr>\n')


def name_shown(stream):
    """The name of a stream, in characters that a page may have."""
    return "standard input" if stream == "-" else stream.encode("utf-8", "replace").decode("utf-8")


def page_of(stream, groups, sections):
    """The page of groups of traces."""
    about = f"""\
{sum(len(group.positions) for group in groups)} violations in {len(groups)} groups, the largest first. Each violation was reduced to a small trace that shows it, with other \
addresses and values; a group is those whose small traces have a cycle of the same shape. <code>tools/sort-violations --help</code> \
says what shapes and names mean. <code>tsobench explain --nth N</code> explains the violation at position N as it came."""
    rows = "".join(row_of(number, group) for number, group in enumerate(groups, 1))
    other = "<p>The cycle of picture and explanation may be another than that of the shape, where a trace has several.</p>\n"
    return page_with(f"Violations of {stream}", about, ("Group", "Violations", "Name", "Shape", "First"), rows, other + "".join(sections))


def page_with(title, about, columns, rows, rest):
    """A page with a table of groups that has these columns and rows, and what it says before and after."""
    heads = "".join(f'<th class="number">{name}</th>' if name in NUMBERS else f"<th>{name}</th>" for name in columns)
    return f"""\
<!DOCTYPE html>
<html lang="en">
<head>
<meta charset="utf-8">
<meta name="viewport" content="width=device-width, initial-scale=1">
<title>{html.escape(title)}</title>
<style>
{STYLE}</style>
</head>
<body>
<h1>{html.escape(title)}</h1>
<p>{about}</p>
<table id="groups">
<thead><tr>{heads}</tr></thead>
<tbody>
{rows}</tbody>
</table>
{rest}</body>
</html>
"""


def write(path, program, stream, groups, workers):
    """Writes the page, of which no part stands there before all is made."""
    with concurrent.futures.ThreadPoolExecutor(workers) as pool:
        contents = list(pool.map(functools.partial(content_of, program), enumerate(groups, 1)))
    sections = [section_of(number, *parts) for number, parts in enumerate(zip(groups, contents, new_legends(contents)), 1)]
    with open(path, "w", encoding="utf-8") as file:
        file.write(page_of(name_shown(stream), groups, sections))
