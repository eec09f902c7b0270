"""What docs/PROGRAMMING.md says of the answers of import, template and export is so; and what docs/GUIDE.md says of headings."""

import json
import re
import unittest
from pathlib import Path

from command import EXAMPLE, TOP, InFolder, run

from tsav.command import tables

SECTION = (TOP / "docs" / "PROGRAMMING.md").read_text(encoding="utf-8").partition("### Import, export and template\n")[2].partition("\n### ")[0]


def names(text: str) -> list:
    return sorted(re.findall("`([^`]*)`", text))


class Page(InFolder):
    def test_json(self):
        shapes = {row[0]: [names(text) for text in row[1:]] for row in re.findall(r"(?m)^\| (import|export|template) \| (.*) \| ?(.*) ?\|$", SECTION)}
        fault = names(re.search("(?m)^A fault has .*$", SECTION)[0])
        Path("good.csv").write_text("GEN,0,4,1,\n", encoding="utf-8")
        Path("bad.csv").write_text("RSK,1,1,1,2\n", encoding="utf-8")
        answers = [json.loads(run("import", name, "-o", "my.sheet", "--json")[1]) for name in ("good.csv", "bad.csv")]
        self.assertEqual([sorted(answer) for answer in answers], shapes["import"])
        self.assertEqual(sorted(answers[1]["faults"][0]), fault)
        answers = [json.loads(run("export", name, "-o", "out.csv", "--replace", "--json")[1]) for name in (EXAMPLE, "bad.csv")]
        self.assertEqual([sorted(answer) for answer in answers], shapes["export"])
        self.assertEqual(shapes["template"], [shapes["export"][0], []])

    def test_the_headings(self):
        for written in zip(*(columns[:2] for columns in tables.COLUMNS.values())):
            self.assertEqual(self.sheet("figures.csv", (",".join(written) + "\nGEN,0,4,1,\n").encode("utf-8"))[:3], b"GEN")


if __name__ == "__main__":
    unittest.main()
