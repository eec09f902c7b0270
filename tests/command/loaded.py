"""An installed command that is loaded once and forked for each run, so that thousands of runs don't start Python thousands of times.

Each fork is a process of its own: it has its arguments, folder, environment and streams, nothing of an earlier run, and ends as the command does.
Its package is the installed one alone. This file is both sides: `Loaded` starts it as a program with the package's folder and a socket.
"""

import gc
import json
import os
import signal
import socket
import subprocess
import sys
import tempfile
import traceback
from pathlib import Path
from typing import Optional

# What it answers with is a status; what it is asked is the words of one run.
_ANSWER = 16
_LONGEST = 1 << 20
# As much as a pipe holds while nobody reads it.
_PIPE = 1 << 16
# What the command loads where a run needs it, and isn't the command's own.
_OTHERS = ("openpyxl", "jinja2")


def folder_of(command: list) -> Optional[Path]:
    """Where the package of an installed command lies, if it is such a one."""
    found = Path(command[0]).resolve().parent.parent / "lib" / "tsav" / "python" if len(command) == 1 else None
    return found if found and (found / "tsav" / "command").is_dir() else None


class Loaded:
    """The command whose package lies in this folder."""

    def __init__(self, folder: Path):
        self._ours, theirs = socket.socketpair(socket.AF_UNIX, socket.SOCK_SEQPACKET)
        around = {**os.environ, "PYTHONIOENCODING": "utf-8"}
        words = ["python3", __file__, str(folder), str(theirs.fileno())]
        self._process = subprocess.Popen(
            words, stdin=subprocess.DEVNULL, env=around, cwd="/", pass_fds=[theirs.fileno()], start_new_session=True
        )
        theirs.close()

    def run(self, arguments: list, given: bytes, environment: dict, seconds: float) -> tuple:
        """The status and what was written to both streams."""
        asked = json.dumps({"arguments": arguments, "folder": os.getcwd(), "environment": environment})
        with _readable(given) as into, tempfile.TemporaryFile() as out, tempfile.TemporaryFile() as err:
            socket.send_fds(self._ours, [asked.encode("ascii")], [into.fileno(), out.fileno(), err.fileno()])
            self._ours.settimeout(seconds)
            try:
                status = int(self._ours.recv(_ANSWER) or b"-1")
            except OSError:
                self.end()
                raise
            written = []
            for stream in (out, err):
                stream.seek(0)
                written.append(stream.read())
        return status, *written

    def end(self) -> None:
        """With a run that hangs, if there is one."""
        os.killpg(self._process.pid, signal.SIGKILL)
        self._process.wait()


def _readable(given: bytes):
    """A pipe, as most runs have one; what is longer than it holds is in a file."""
    if len(given) > _PIPE:
        file = tempfile.TemporaryFile()
        file.write(given)
        file.seek(0)
        return file
    reads, writes = os.pipe()
    with open(writes, "wb") as pipe:
        pipe.write(given)
    return open(reads, "rb")


def _serve(ours: socket.socket) -> Optional[list]:
    """The arguments of a run, in its fork; None where no more is asked."""
    while True:
        asked, streams, _flags, _address = socket.recv_fds(ours, _LONGEST, 3)
        if not asked:
            return None
        child = os.fork()
        if not child:
            ours.close()
            return _become(json.loads(asked), streams)
        for stream in streams:
            os.close(stream)
        status = os.waitstatus_to_exitcode(os.waitpid(child, 0)[1])
        ours.send(b"%d" % status)


def _become(asked: dict, streams: list) -> list:
    for place, stream in enumerate(streams):
        os.dup2(stream, place)
        os.close(stream)
    os.chdir(asked["folder"])
    os.environ.clear()
    os.environ.update(asked["environment"])
    sys.argv[1:] = asked["arguments"]
    return asked["arguments"]


def _end(main, arguments: list) -> None:
    """With the status that Python would end with."""
    try:
        sys.exit(main(arguments))
    except SystemExit as ended:
        status = ended.code or 0
    except BaseException:
        traceback.print_exc()
        status = 1
    for stream in (sys.stdout, sys.stderr):
        stream.flush()
    os._exit(status)


if __name__ == "__main__":
    # The installed package first, as bin/tsav has it, and no folder of the tests.
    sys.path[:] = [sys.argv[1], *filter(None, sys.path[1:])]
    from tsav.command.main import main

    for other in _OTHERS:
        try:
            __import__(other)
        except (ImportError, OSError):
            pass
    # What is there stays shared with the forks: to tidy it up, each would copy all of it first.
    gc.freeze()
    served = _serve(socket.socket(fileno=int(sys.argv[2])))
    if served is not None:
        _end(main, served)
