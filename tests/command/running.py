"""Runs the command as people do, with its status and what it wrote: in this process, or a fork of an installed one that TSAV_COMMAND names;
as a process that is started for it where `alone` is asked for."""

import contextlib
import functools
import io
import os
import shlex
import subprocess
import sys
from pathlib import Path
from typing import NamedTuple
from unittest import mock

import loaded
from tsav.command.main import main

TOP = Path(__file__).resolve().parents[2]
INSTALLED = shlex.split(os.environ.get("TSAV_COMMAND", ""))
COMMAND = INSTALLED or [sys.executable, "-m", "tsav.command"]
SECONDS = 120


class Ran(NamedTuple):
    status: int
    out: str
    err: str


def tsav(*arguments, given=b"", alone=False, **environment) -> Ran:
    """With no locale but what is given here. Which library is loaded is told by the environment that a process starts with."""
    around = {name: value for name, value in os.environ.items() if not name.startswith("LC_") and name not in ("LANG", "LANGUAGE")}
    around.update(environment)
    if alone or (INSTALLED and ("TSAV_LIBRARY" in environment or not _installed())):
        return _started(arguments, given, around)
    if INSTALLED:
        status, *written = _installed().run(list(arguments), given, around, SECONDS)
        return Ran(status, *(text.decode("utf-8") for text in written))
    return _here(arguments, given, around)


def _started(arguments, given: bytes, around: dict) -> Ran:
    around = {"PYTHONIOENCODING": "utf-8", **around}
    done = subprocess.run([*COMMAND, *arguments], input=given, capture_output=True, env=around, timeout=SECONDS, check=False)
    return Ran(done.returncode, done.stdout.decode("utf-8"), done.stderr.decode("utf-8"))


@functools.lru_cache(maxsize=None)
def _installed():
    """None where the installed command isn't one that ./install has put there."""
    folder = loaded.folder_of(INSTALLED)
    return folder and loaded.Loaded(folder)


def _here(arguments, given: bytes, around: dict) -> Ran:
    out, err = (io.TextIOWrapper(io.BytesIO(), encoding="utf-8") for _ in range(2))
    with mock.patch.dict(os.environ, around, clear=True), mock.patch("sys.stdin", io.TextIOWrapper(io.BytesIO(given))):
        with contextlib.redirect_stdout(out), contextlib.redirect_stderr(err):
            try:
                status = main(list(arguments))
            except SystemExit as ended:
                status = ended.code or 0
    for stream in (out, err):
        stream.flush()
    return Ran(status, out.buffer.getvalue().decode("utf-8"), err.buffer.getvalue().decode("utf-8"))


def names_of(value):
    """The names of a JSON value, of all its parts."""
    if isinstance(value, dict):
        yield from value
        value = list(value.values())
    for part in value if isinstance(value, list) else []:
        yield from names_of(part)
