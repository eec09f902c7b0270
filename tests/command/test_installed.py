"""An installed command answers as a process that people start just as it does in a fork (loaded.py), by which all else is tried."""

import unittest

from running import INSTALLED, TOP, tsav
from sheets import EXAMPLE, InFolder

QUARTER = str(TOP / "examples" / "example.quarter")
MOVEMENT = str(TOP / "examples" / "example.movement")
AMOUNTS = ["1"] * 17

# Each subcommand, answered, refused and used in a wrong way; what is written is a new file each time.
RUNS = (
    (),
    ("--help",),
    ("--version",),
    ("explain", "-"),
    ("explain", "{bad}"),
    ("explain", "--quarter", QUARTER),
    ("explain", "--movement", MOVEMENT),
    ("explain", "--refusal", "17", "--json"),
    ("warn", "{good}", "--before", "{other}"),
    ("warn", "{bad}", "--json"),
    ("compare", "{other}", "{good}"),
    ("block", "{good}", "--block", "1"),
    ("block", *AMOUNTS, "--csv"),
    ("shares", "{good}", "--block", "1", "--json"),
    ("movement", "{good}", "--block", "1", "--by", "10000"),
    ("operational", "{good}"),
    ("fluctuation", "7", "1"),
    ("fluctuation", "2", "100000000.00", "--csv"),
    ("report", "{good}", "--json"),
    ("report", "{good}", "--csv", "{new}.csv"),
    ("report", "--quarter", QUARTER, "--json"),
    ("template", "-o", "{new}.xlsx"),
    ("export", "{good}", "-o", "{new}.csv"),
    ("export", "{good}", "-o", "{new}.xls"),
    ("import", "{rows}", "-o", "{new}.sheet"),
    ("import", "{good}", "-o", "{new}.sheet"),
)


@unittest.skipUnless(INSTALLED, "no installed command is named")
class Installed(InFolder):
    def test_a_process_answers_as_a_fork(self):
        files = {
            "good": self.file("good.sheet", EXAMPLE),
            "other": self.file("other.sheet", EXAMPLE.replace(b"1000000 ", b"2000000 ")),
            "bad": self.file("bad.sheet", EXAMPLE.lower().replace(b"gen", b"Gen")),
            "rows": self.file("rows.csv", b"RSK,1,1,5,5\nGEN,0,4,1.05,\n"),
            "new": str(self.folder / "new"),
        }
        seen = set()
        for words in RUNS:
            for language in ("en", "fr"):
                with self.subTest(words=words[:3], language=language):
                    arguments = ["--lang", language, *(word.format(**files) for word in words)]
                    answers = []
                    for alone in (False, True):
                        answers.append((tsav(*arguments, given=EXAMPLE, alone=alone), self.written()))
                    self.assertEqual(answers[0], answers[1])
                    seen.add(answers[0][0].status)
        self.assertEqual(seen, {0, 1, 2})

    def written(self) -> dict:
        """What a run has written, which is then taken away; of a workbook that it is there, as it has the time in it."""
        found = {path.name: path.read_bytes() for path in self.folder.glob("new*")}
        for path in self.folder.glob("new*"):
            path.unlink()
        return {name: name.endswith(".xlsx") or content for name, content in found.items()}
