"""Where the tools find the program, and the harness in C that records traces: in a checkout of the repository, or below the folder
where a package was unpacked or installed."""

from __future__ import annotations

import os
import pathlib
import shutil
import sys

# Their folder is tools/ of a checkout, or lib/tsobench of an installation.
TOOLS = pathlib.Path(__file__).resolve().parent
CHECKOUT, PREFIX = TOOLS.parent, TOOLS.parent.parent


def program_path(given=None):
    """The absolute path of the program: the one given, the one built or installed beside the tools, or that on the path. There may
    be no program at it."""
    places = [CHECKOUT / "crates/tsobench/out/tsobench", PREFIX / "bin/tsobench"]
    found = given or next((path for path in places if os.access(path, os.X_OK)), None) or shutil.which("tsobench")
    return os.path.abspath(found or places[0])


def find_program(script, given=None):
    """The path of the program, as `program_path` has it. Ends the script where there is no program."""
    program = program_path(given)
    if not os.access(program, os.X_OK):
        sys.exit(f"{script}: no program at {program}")
    return program


def harness_folder():
    """The folder of the harness that runs programs on this machine's processors."""
    places = (CHECKOUT / "contrib/capture", PREFIX / "share/doc/tsobench/contrib/capture")
    return next((path for path in places if path.is_dir()), places[0])
