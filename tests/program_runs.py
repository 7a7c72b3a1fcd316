"""What the Python scripts that try the built program share: where it stands, a run of it, and what any answer has to be."""

from __future__ import annotations

import contextlib
import os
import pathlib
import re
import shutil
import subprocess
import sys
import tempfile
from typing import NamedTuple

TOP = pathlib.Path(__file__).resolve().parents[1]
# The scripts of tests/ and measure/ use modules of tools/.
sys.path.insert(1, str(TOP / "tools"))
from installation import find_program
from trace_texts import lines_of, traces_of, without_values_read

LAWFUL_KINDS = ("serial", "buffer", "partial")
FAULTY_KINDS = ("newest-first", "no-forward", "stale-load", "torn-swap", "idle-membar", "lost-drain")
SECONDS = 60
WRONG_ANSWERS = 10
HOLDS = b"CERTIFICATE HOLDS\n"
# The report of `judge`, with its certificate if it is of a violation, and the account that `replay` and `run` add.
REPORT = re.compile(
    rb"TSO REPORT 1\nprocessors [0-9]+ events [0-9]+ rounds [0-9]+\n"
    rb"(?:NO VIOLATION FOUND\n|VIOLATION\n(?P<certificate>(?:[0-9]+ .*\n)*(?:cycle|unwritten) .*\n))"
    rb"(?P<account>account loads [0-9]+ stores [0-9]+ swaps [0-9]+ membars [0-9]+ drains [0-9]+ closed\n)?")


class Answer(NamedTuple):
    """What the program answered. The status is negative after a signal, and None where it didn't end in its seconds."""

    status: int | None
    output: bytes
    errors: bytes


class Wrong(Exception):
    """What is wrong with an answer."""


@contextlib.contextmanager
def work_folder():
    """A folder that has the files of examples/ and, as `files`, those of program-cases/files/, as the current one."""
    folder = tempfile.mkdtemp()
    os.chdir(folder)
    os.symlink(TOP / "examples", "examples")
    os.symlink(TOP / "program-cases/files", "files")
    try:
        yield
    finally:
        os.chdir("/")
        # A run that was cut short may still write there.
        shutil.rmtree(folder, ignore_errors=True)


def build_refusals():
    """Builds the library of tests/refusals.c as refusals.so of the current folder; False where there is no C compiler."""
    if shutil.which("cc") is None:
        return False
    subprocess.run(["cc", "-shared", "-fPIC", "-O1", "-o", "refusals.so", TOP / "tests/refusals.c"], check=True)
    return True


def figures_of(command, text, refused):
    """Runs a command with what these variables of refusals.so say refused: the answer, and the numbers that the library wrote,
    None where it wrote none."""
    path = f"figures.{os.getpid()}"
    answer = run(command, text, {"LD_PRELOAD": os.path.abspath("refusals.so"), "FIGURES": path, **refused})
    if not os.path.exists(path):
        return answer, None
    with open(path, encoding="ascii") as file:
        numbers = list(map(int, file.read().split()))
    os.remove(path)
    return answer, numbers


def run(command, text=None, environment=None):
    """Runs a command, with a text on standard input, or a folder there, of which no byte can be read."""
    folder = None if text is not None else os.open(".", os.O_RDONLY)
    try:
        done = subprocess.run(command, input=text, stdin=folder, capture_output=True, timeout=SECONDS, close_fds=False,
                              env=None if environment is None else {**os.environ, **environment}, check=False)
        return Answer(done.returncode, done.stdout, done.stderr)
    except subprocess.TimeoutExpired as late:
        return Answer(None, late.stdout or b"", late.stderr or b"")
    finally:
        if folder is not None:
            os.close(folder)


def shown(stream):
    """The beginning of what a stream got, for a message."""
    return repr(stream[:200].decode("utf-8", "replace"))


def is_lawful(kind, program):
    """Whether a kind of unit is lawful for the text of a program."""
    return kind in ("serial", "buffer") or kind == "partial" and lines_of(program)[1:2] == [b"model pso\n"]


class Trial:
    """Texts in a folder of their own, the current one, which are given to the program. What isn't right raises `Wrong`.
    `certificates` counts those that the checker accepted, `arguments` are those of the last run."""

    def __init__(self, program):
        self.program, self.texts, self.arguments, self.certificates = program, {}, (), 0
        self.folder = tempfile.mkdtemp(dir=".")
        os.chdir(self.folder)

    def end(self):
        os.chdir("..")
        shutil.rmtree(self.folder)

    def keep(self):
        """Copies the texts to a folder that stays, and answers its name."""
        kept = tempfile.mkdtemp(prefix="tsobench-texts-")
        shutil.copytree(".", kept, dirs_exist_ok=True)
        return kept

    def write(self, name, text):
        self.texts[name] = text
        with open(name, "wb") as file:
            file.write(text)

    def run(self, *arguments):
        self.arguments = arguments
        answer = run([self.program, *arguments])
        if answer.errors:
            raise Wrong(f"status {answer.status}, standard error {shown(answer.errors)}")
        return answer

    def expect(self, status, output, *arguments):
        """Its output, where it ends with this status, and this output if one is given."""
        answer = self.run(*arguments)
        if answer.status != status or output not in (None, answer.output):
            wanted = f"status {status}" if output is None else f"status {status}, {shown(output)}"
            raise Wrong(f"status {answer.status}, {shown(answer.output)}, not {wanted}")
        return answer.output

    def certificate_of(self, answer, has_account=False):
        """The certificate of a report, None where it isn't of a violation."""
        report = REPORT.fullmatch(answer.output)
        if not report or bool(report["account"]) != has_account or answer.status != (3 if report["certificate"] else 0):
            raise Wrong(f"status {answer.status}, {shown(answer.output)}")
        return report["certificate"]

    def judge(self, name, workers=1):
        """The answer on the trace in a file; the checker accepts its certificate."""
        answer = self.run("judge", "--workers", str(workers), name)
        certificate = self.certificate_of(answer)
        if certificate:
            self.write("found.certificate", certificate)
            self.expect(3, HOLDS, "check", name, "found.certificate")
            self.certificates += 1
        return answer

    def judge_recorded(self, trace, kind, workers=1):
        """The answer on a trace that a kind of unit recorded of the program: the trace has the program's operations, and is no
        violation where the unit is lawful."""
        if without_values_read(trace) != self.texts["program"]:
            raise Wrong(f"the recorded trace is of another program: {shown(trace)}")
        self.write("recorded", trace)
        answer = self.judge("recorded", workers)
        if answer.status != 0 and is_lawful(kind, self.texts["program"]):
            raise Wrong(f"a violation on a lawful unit: {shown(answer.output)}")
        return answer

    def replay(self, kind, options, is_refused):
        """The report of a replay and the verdict on its trace agree. It answers the report, or None for what is a refusal."""
        arguments = ["replay", "--unit", kind, *options]
        answer = self.run(*arguments, "program", "schedule")
        if is_refused(answer):
            return None
        self.certificate_of(answer, has_account=True)
        judged = self.judge_recorded(self.expect(0, None, *arguments, "--trace", "program", "schedule"), kind)
        if judged.status != answer.status or not answer.output.startswith(judged.output):
            raise Wrong(f"a replay reports {shown(answer.output)}, and judge of its trace {shown(judged.output)}")
        return answer
