"""For the tests: the command, and files that are made for it."""

import io
import os
import tempfile
import unittest
import zipfile
from pathlib import Path

from running import TOP, tsav

try:
    import openpyxl
except ImportError:
    openpyxl = None

EXAMPLE = TOP / "examples" / "example.sheet"

needs_openpyxl = unittest.skipUnless(openpyxl, "openpyxl is not installed")


def run(*arguments, given: bytes = b"", **more):
    """The status, and what is written to standard output and to standard error, in English where nothing else is asked for."""
    if "--lang" not in arguments:
        arguments = "--lang", "en", *arguments
    return tsav(*map(str, arguments), given=given, **more)


def run_process(*arguments, **more):
    """The same as a process that is started for it."""
    return run(*arguments, alone=True, **more)


class InFolder(unittest.TestCase):
    """A test in a folder of its own, with one sheet that stands there from before."""

    BEFORE = b"GEN  0  4          12345              0\n"

    def setUp(self):
        folder = tempfile.TemporaryDirectory()
        self.addCleanup(folder.cleanup)
        self.addCleanup(os.chdir, os.getcwd())
        os.chdir(folder.name)
        self.folder = Path(folder.name)
        Path("out.sheet").write_bytes(self.BEFORE)

    def sheet(self, name: str, content: bytes, language: str = "en") -> bytes:
        """What the import of this file writes."""
        Path(name).write_bytes(content)
        status, said, wrong = run("import", name, "-o", "out.sheet", "--lang", language)
        self.assertEqual((status, wrong), (0, ""), said)
        return Path("out.sheet").read_bytes()

    def refused(self, name: str, content: bytes, *told: str, language: str = "en", status: int = 1) -> None:
        """The import of this file says these lines, behind one that it is refused, and leaves the folder as it was."""
        Path(name).write_bytes(content)
        before = {path.name: path.read_bytes() for path in self.folder.iterdir() if path.is_file()}
        found, said, wrong = run("import", name, "-o", "out.sheet", "--lang", language)
        self.assertEqual((found, wrong), (status, ""), said)
        self.assertEqual(said.splitlines()[1:], list(told))
        self.assertEqual({path.name: path.read_bytes() for path in self.folder.iterdir() if path.is_file()}, before)


def book(rows, title: str = "Figures", change=None) -> bytes:
    """A workbook of these rows, changed as is told."""
    made = openpyxl.Workbook()
    made.active.title = title
    for row in rows:
        made.active.append(row)
    if change:
        change(made)
    file = io.BytesIO()
    made.save(file)
    return file.getvalue()


def parts(content: bytes) -> dict:
    with zipfile.ZipFile(io.BytesIO(content)) as archive:
        return {name: archive.read(name) for name in archive.namelist()}


def archive(parts: dict, compression: int = zipfile.ZIP_DEFLATED) -> bytes:
    file = io.BytesIO()
    with zipfile.ZipFile(file, "w", compression) as made:
        for name, part in parts.items():
            made.writestr(name, part)
    return file.getvalue()
