"""docs/GUIDE.md and docs/GUIDE.fr.md have the same headings, commands, tables and numbers; and what each links to is there."""

import re
import unittest

import pages
from pages import ENGLISH, FRENCH, PROGRAMMING


def differences(english: list, french: list) -> list:
    """In what the two pages differ, each with the heading where it does."""
    if [section.level for section in english] != [section.level for section in french]:
        return [("", "headings", [section.heading for section in english], [section.heading for section in french])]
    found = []
    for here, there in zip(english, french):
        for what, one, other in (
            ("blocks", [block.kind for block in here.blocks], [block.kind for block in there.blocks]),
            ("commands", _commands(here), _commands(there)),
            ("tables", _shapes(here), _shapes(there)),
            ("code", here.spans(), there.spans()),
            ("numbers", here.numbers("en"), there.numbers("fr")),
            ("codes", here.codes(), there.codes()),
        ):
            if one != other:
                found.append((here.heading, what, one, other))
    return found


def _commands(section: pages.Section) -> list:
    return [block.text for block in section.blocks if block.kind == "sh"]


def _shapes(section: pages.Section) -> list:
    return [[len(row) for row in table] for table in section.tables]


class Same(unittest.TestCase):
    def test_the_guides(self):
        self.assertEqual(differences(pages.page(ENGLISH), pages.page(FRENCH)), [])

    def test_what_is_told(self):
        """Each of these changes of the French page is a difference, and of the kind that it is."""
        text = FRENCH.read_text(encoding="utf-8")
        for what, old, new in (
            ("headings", r"(?m)^### .*\n", ""),
            ("commands", "--blocks 1,2,17", "--blocks 1,2"),
            ("blocks", "```csv", "```text"),
            ("tables", r"(?m)^\| 11 \| .*\n", ""),
            ("code", "`tsav --version`", "`tsav --versions`"),
            ("numbers", "1,29", "1,39"),
            ("numbers", "999 999 999 999,99", "999 999 999 999,9"),
            ("codes", r"(?m)^\| MOR \| RSK", "| MOR | OTH"),
        ):
            with self.subTest(what, old=old):
                changed = re.sub(old, new, text.replace("\u00a0", " "), count=1)
                self.assertNotEqual(changed, text.replace("\u00a0", " "))
                told = differences(pages.page(ENGLISH), pages.read(changed))
                self.assertIn(what, [difference[1] for difference in told])

    def test_contents(self):
        """The list on top names every heading below it, in order."""
        for path in (ENGLISH, FRENCH):
            first, *others = pages.page(path)
            self.assertEqual([link for link in first.links()], [pages.anchor(section.heading) for section in others])
        first, *others = pages.page(PROGRAMMING)
        own = [link for link in first.links() if link.startswith("#")]
        self.assertEqual(own, [pages.anchor(section.heading) for section in others])

    def test_links(self):
        """What a page links to in another one is a heading there."""
        for path in (ENGLISH, FRENCH, PROGRAMMING):
            for section in pages.page(path):
                for name, _, heading in (link.partition("#") for link in section.links() if not link.startswith("#")):
                    self.assertTrue((path.parent / name).is_file())
                    if heading:
                        self.assertIn("#" + heading, [pages.anchor(there.heading) for there in pages.page(path.parent / name)])

    def test_refusals(self):
        """The table has all of them, and no other place has."""
        for path, heading in ((ENGLISH, "All refusals"), (FRENCH, "Tous les refus")):
            [table] = pages.section(path, heading).tables
            self.assertEqual([row[0] for row in table[1:]], [str(number) for number in range(1, 26)])


if __name__ == "__main__":
    unittest.main()
