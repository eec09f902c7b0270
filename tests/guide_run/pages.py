"""Reads the pages of docs/ apart: headings, prose, tables, and blocks of code, each of a kind that stands behind its fence."""

import re
from collections import Counter
from pathlib import Path
from typing import NamedTuple

TOP = Path(__file__).resolve().parents[2]
ENGLISH, FRENCH, PROGRAMMING = (TOP / "docs" / name for name in ("GUIDE.md", "GUIDE.fr.md", "PROGRAMMING.md"))

SPAN = re.compile("`([^`]*)`")
_LINK = re.compile(r"\[([^]]*)\]\(([^)]*)\)")
# Thousands are apart by commas in English, by spaces in French, where decimals stand behind a comma. A section has points in both.
_NUMBERS = {"en": re.compile(r"\d+(?:[.,]\d+)*"), "fr": re.compile(r"(?:\d{1,3}(?:[ \u00a0]\d{3})+|\d+)(?:[.,]\d+)*")}
# Codes, kinds of lines, and the guideline's letters for amounts.
_CODE = re.compile(r"\b(?:RSK|OTH|MOR|VOL|ACQ|GEN|CRD|BLK|TOT|SHT|SUM|REF|MOV|GFD|RO|CG|PC|CR_[SDij]|(?:IR|LT)[1-7]?)\b")


class Block(NamedTuple):
    kind: str
    text: str


class Section(NamedTuple):
    """What stands under a heading, up to the next one."""

    level: int
    heading: str
    prose: list
    tables: list
    blocks: list

    def words(self) -> str:
        return "\n".join(self.prose + ["|".join(row) for table in self.tables for row in table])

    def spans(self) -> Counter:
        return Counter(SPAN.findall(self.words()))

    def numbers(self, language: str) -> Counter:
        """Those outside of code, written alike."""
        words = _LINK.sub(r"\1", SPAN.sub("", self.words()))
        found = _NUMBERS[language].findall(words)
        if language == "en":
            return Counter(number.replace(",", "") for number in found)
        return Counter(re.sub("[ \u00a0]", "", number).replace(",", ".") for number in found)

    def codes(self) -> set:
        return set(_CODE.findall(SPAN.sub("", self.words())))

    def links(self) -> list:
        return [target for _text, target in _LINK.findall("\n".join(self.prose))]


def read(text: str) -> list:
    """The sections of a page, in order."""
    sections, lines, before = [], iter(text.split("\n")), ""
    for line in lines:
        heading = re.fullmatch("(#+) (.*)", line)
        if heading:
            sections.append(Section(len(heading[1]), heading[2], [], [], []))
        elif line.startswith("```"):
            sections[-1].blocks.append(Block(line[3:], "".join(inside + "\n" for inside in iter(lines.__next__, "```"))))
        elif line.startswith("|"):
            if not before.startswith("|"):
                sections[-1].tables.append([])
            cells = [cell.strip() for cell in line.strip("|").split("|")]
            if not all(re.fullmatch("-+", cell) for cell in cells):
                sections[-1].tables[-1].append(cells)
        else:
            sections[-1].prose.append(line)
        before = line
    return sections


def page(path: Path) -> list:
    return read(path.read_text(encoding="utf-8"))


def section(path: Path, heading: str) -> Section:
    return next(found for found in page(path) if found.heading == heading)


def anchor(heading: str) -> str:
    """What a link to a heading is written with."""
    return "#" + re.sub(r"[^\w\- ]", "", heading.lower()).replace(" ", "-")
