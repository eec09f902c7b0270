"""Every message is in both languages; and the frame's languages, versions and statuses."""

import argparse
import os
import re
import string
import subprocess
import tempfile
import unittest
from pathlib import Path
from unittest import mock

import catalogue
import tsav as library
from running import COMMAND, INSTALLED, tsav
from tsav.command import arguments, messages

# Of argparse, what the command says in its own words, or what no user of these subcommands can meet.
OWN = {
    "usage: ", "positional arguments", "options", "optional arguments", "show this help message and exit", "%(heading)s:", "subcommands",
    "argument %(argument_name)s: %(message)s", "unrecognized arguments: %s", "%(prog)s: error: %(message)s\n",
}  # fmt: skip
NEVER = {
    "%r is not callable", "'required' is an invalid argument for positionals", ".__call__() not defined", "argument \"-\" with mode %r",
    "can't open '%(filename)s': %(error)s", "cannot have multiple subparser arguments", "cannot merge actions - two groups are named %r",
    "conflicting option string: %s", "conflicting subparser alias: %s", "conflicting subparser: %s", "dest= is required for options like %r",
    "expected %s argument", "invalid %(type)s value: %(value)r", "invalid conflict_resolution value: %r", " (default: %(default)s)",
    "invalid option string %(option)r: must start with a character %(prefix_chars)r", "mutually exclusive arguments must be optional",
    "one of the arguments %s is required", "unexpected option string: %s", "unknown parser %(parser_name)r (choices: %(choices)s)",
    "show program's version number and exit", "%(prog)s: warning: %(message)s\n", "argument '%(argument_name)s' is deprecated",
    "command '%(parser_name)s' is deprecated", "option '%(option)s' is deprecated",
}  # fmt: skip


def names(text: str) -> set:
    """What is put in by name, or in argparse's way."""
    return {name for _, name, _, _ in string.Formatter().parse(text) if name is not None} | set(re.findall(r"%\(\w+\).|%[a-z]", text))


class Messages(unittest.TestCase):
    @classmethod
    def setUpClass(cls):
        cls.source = set().union(*(catalogue.of_source(file) for file in catalogue.COMMAND.glob("*.py")))
        cls.french = [entry for file in sorted(catalogue.FRENCH.glob("*.po")) for entry in catalogue.of_french(file)]

    def test_none_is_missing(self):
        self.assertGreater(len(self.source), 100)
        self.assertEqual(self.source - {english for english, _ in self.french}, set())

    def test_none_is_without_use(self):
        self.assertEqual({english for english, _ in self.french} - self.source, set())

    def test_argparse_has_no_other_sentence(self):
        """That of this Python: each is one that is translated, one that the command says itself, or one that nobody meets."""
        found = {texts[0] for texts in catalogue.of_source(Path(argparse.__file__))}
        self.assertEqual(found - set(arguments.OF_ARGPARSE) - OWN - NEVER, set())
        self.assertLessEqual(set(arguments.OF_ARGPARSE), found)

    def test_each_is_said_once(self):
        said = [english for english, _ in self.french]
        self.assertEqual([english for english in said if said.count(english) > 1], [])

    def test_each_is_translated(self):
        for english, french in self.french:
            with self.subTest(english):
                self.assertEqual(len(french), len(english))
                self.assertTrue(all(text.strip() for text in french))

    def test_the_same_is_put_in(self):
        for english, french in self.french:
            for text in french:
                with self.subTest(text):
                    self.assertEqual(names(text), names(english[-1]))

    def test_the_french_are_other_words(self):
        """But for those that are written alike in both."""
        alike = {("{name} {number}",), ("options",), ("UTF-16",), ("Section",), ("section",), ("Position",), ("arguments",)}
        same = {english for english, french in self.french if english == french}
        self.assertLessEqual(same, alike)


class Frame(unittest.TestCase):
    def test_language_by_option_and_locale(self):
        for arguments, environment, french in (
            ((), {}, False),
            ((), {"LANG": "fr_CA.UTF-8"}, True),
            ((), {"LANG": "en_CA.UTF-8"}, False),
            ((), {"LANG": "en_CA.UTF-8", "LC_ALL": "fr_CA"}, True),
            ((), {"LANG": "fr_CA.UTF-8", "LC_ALL": "C"}, False),
            ((), {"LANG": "de_DE.UTF-8", "LANGUAGE": "de:fr:en"}, True),
            ((), {"LANG": "C", "LANGUAGE": "fr"}, False),
            ((), {"LANG": "fr_FR", "LANGUAGE": "en:fr"}, False),
            (("--lang", "fr"), {"LANG": "en_CA.UTF-8"}, True),
            (("--lang=en",), {"LANG": "fr_CA.UTF-8"}, False),
        ):
            with self.subTest(arguments=arguments, **environment):
                ran = tsav(*arguments, "explain", "--refusal", "10", **environment)
                self.assertEqual((ran.status, ran.err), (0, ""))
                self.assertEqual(ran.out.startswith("Refus 10"), french)
                self.assertEqual(ran.out.startswith("Refusal 10"), not french)

    @unittest.skipIf(INSTALLED, "an installed command has its own messages")
    def test_french_not_built(self):
        """Said where it is asked for, with status 2; where the locale alone asks, English follows."""
        with tempfile.TemporaryDirectory() as empty, mock.patch.object(messages, "FOLDER", empty):
            asked = tsav("--lang", "fr", "explain", "--refusal", "10")
            self.assertEqual((asked.status, asked.out), (2, ""))
            self.assertIn("bindings/messages", asked.err)
            told = tsav("explain", "--refusal", "10", LANG="fr_CA.UTF-8")
            self.assertEqual((told.status, told.err), (0, asked.err))
            self.assertTrue(told.out.startswith("Refusal 10"))

    def test_closed_streams(self):
        """A closed standard output is a write that fails, status 2; a closed standard error stops nothing."""
        shell = ["sh", "-c", '"$@" --lang en explain --refusal 10 >&-', "sh", *COMMAND]
        ran = subprocess.run(shell, capture_output=True, text=True, timeout=120, check=False)
        self.assertEqual((ran.returncode, ran.stdout), (2, ""))
        self.assertTrue(ran.stderr.startswith("tsav: the answer can't be written: "), ran.stderr)
        shell[2] = shell[2].replace(">&-", "2>&-")
        ran = subprocess.run(shell, capture_output=True, text=True, timeout=120, check=False)
        self.assertEqual((ran.returncode, ran.stderr), (0, ""))
        self.assertTrue(ran.stdout.startswith("Refusal 10"))

    def test_streams_that_fail(self):
        """Of an answer, a help, the versions and an error: status 2 and a sentence, or the status alone where nothing can be said."""
        full = ("the answer can't be written: the disk is full\n", "la r\u00e9ponse ne peut pas \u00eatre \u00e9crite\u00a0: le disque est plein\n")
        closed = ("standard input can't be read: it is closed\n", "impossible de lire l'entr\u00e9e standard\u00a0: le flux est ferm\u00e9\n")
        cases = [("explain <&-", *closed), ("import - -o my.sheet <&-", *closed)]
        cases += [(f"{words} >/dev/full", *full) for words in ("--version", "--help", "block --help", "explain --refusal 10")]
        cases += [(f"{words} 2>/dev/full", "", "") for words in ("explain /", "nothing", "", "--version >/dev/full")]
        cases += [("explain </", *closed)] if INSTALLED else []
        for words, *said in cases:
            for language, text in zip(("en", "fr"), said):
                with self.subTest(words, language=language):
                    shell = ["sh", "-c", f'"$@" --lang {language} {words}', "sh", *COMMAND]
                    ran = subprocess.run(shell, capture_output=True, timeout=120, check=False)
                    self.assertEqual((ran.returncode, ran.stdout, ran.stderr.decode("utf-8")), (2, b"", text and f"tsav: {text}"))

    def test_the_systems_words(self):
        """A file's name that is none, in both languages."""
        for name, said in (
            (str(catalogue.TOP / "VERSION" / "x"), ("there is no such file or folder", "il n'y a pas de fichier ou de dossier de ce nom")),
            ("x" * 300, ("its name is too long", "son nom est trop long")),
        ):
            for language, words in zip(("en", "fr"), said):
                ran = tsav("--lang", language, "explain", name)
                self.assertEqual((ran.status, ran.out, ran.err.endswith(f": {words}\n")), (2, "", True), ran.err)

    def test_language_behind_the_subcommand(self):
        self.assertEqual(tsav("explain", "--refusal", "10", "--lang", "fr"), tsav("--lang", "fr", "explain", "--refusal", "10"))

    def test_usage(self):
        for arguments in ((), ("explain", "--refusal", "26"), ("explain", "a", "b"), ("--lang", "de", "explain"), ("nothing",), ("--nothing",)):
            for environment, said in (({}, ("usage:", ": error: ")), ({"LANG": "fr_CA.UTF-8"}, ("utilisation\u00a0:", "\u00a0: erreur\u00a0: "))):
                with self.subTest(arguments=arguments, **environment):
                    ran = tsav(*arguments, **environment)
                    self.assertEqual((ran.status, ran.out), (2, ""))
                    for text in said:
                        self.assertIn(text, ran.err)

    def test_errors_whatever_the_version(self):
        """What argparse says, and what the command says in its place, word for word in both languages."""
        for given, english, french in (
            (("explain", "a", "b"), "unknown arguments: b", "arguments inconnus\u00a0: b"),
            (("explain", "--refusal", "26"), "argument --refusal: a refusal is a number from 1 to 25", "argument --refusal\u00a0: un refus est un nombre de 1 \u00e0 25"),
            (("explain", "--refusal", "x"), "argument --refusal: a refusal is a number from 1 to 25", "argument --refusal\u00a0: un refus est un nombre de 1 \u00e0 25"),
            (("explain", "--refusal"), "argument --refusal: expected one argument", "argument --refusal\u00a0: une valeur est attendue"),
            (("explain", "--convert=1"), "argument --convert: ignored explicit argument '1'", "argument --convert\u00a0: ne prend pas de valeur, or '1' est donn\u00e9"),
            (("explain", "--convert", "--quarter"), "argument --quarter: not allowed with argument --convert", "argument --quarter\u00a0: ne va pas avec l'argument --convert"),
            (("warn",), "the following arguments are required: SHEET", "il manque les arguments\u00a0: FEUILLE"),
            (("report",), "the following arguments are required: FILE", "il manque les arguments\u00a0: FICHIER"),
        ):
            for language, said, error in (("en", english, "error: "), ("fr", french, "erreur\u00a0: ")):
                with self.subTest(given=given, language=language):
                    ran = tsav("--lang", language, *given)
                    self.assertEqual((ran.status, ran.out), (2, ""))
                    self.assertTrue(ran.err.splitlines()[-1].endswith(f"{error}{said}"), ran.err)

    def test_usage_of_two_lines(self):
        """One below the other, behind the same words."""
        for language, before in (("en", "usage: "), ("fr", "utilisation\u00a0: ")):
            for subcommand in ("block", "shares", "movement"):
                first, second = tsav("--lang", language, subcommand, "--help").out.splitlines()[:2]
                with self.subTest(subcommand=subcommand, language=language):
                    self.assertTrue(first.startswith(f"{before}tsav {subcommand} "), first)
                    self.assertTrue(second.startswith(" " * len(before) + f"tsav {subcommand} "), second)

    def test_help(self):
        for arguments in (("--help",), ("explain", "--help")):
            english, french = tsav(*arguments), tsav(*arguments, LANG="fr_CA.UTF-8")
            self.assertEqual((english.status, french.status), (0, 0))
            # No line of words is the same in both.
            self.assertEqual({line for line in english.out.splitlines() if " " in line.strip()} & set(french.out.splitlines()), set())

    def test_version(self):
        for language, words in (
            ("en", ("tsav ", "library: ", "toolchain: ")),
            ("fr", ("tsav ", "biblioth\u00e8que\u00a0: ", "cha\u00eene d'outils\u00a0: ")),
        ):
            ran = tsav("--lang", language, "--version")
            lines = ran.out.splitlines()
            self.assertEqual((ran.status, len(lines)), (0, 3))
            for line, word in zip(lines, words):
                self.assertTrue(line.startswith(word), line)
            self.assertEqual(lines[0], f"tsav {library.__version__}")
            self.assertIn(f" {library.VERSION}", lines[1])
            if "TSAV_LIBRARY" not in os.environ:
                self.assertTrue(lines[2].endswith((catalogue.TOP / "rattle-toolchain").read_text().strip()), lines[2])

    def test_version_of_another_library(self):
        """Its own number and its name; of its toolchain nothing is known, and the package's isn't named."""
        place = str(Path(library._library._name).resolve()) if "/" in library._library._name else library._library._name
        for language, unknown in (("en", "not known of the library that TSAV_LIBRARY names"), ("fr", "inconnue pour la biblioth\u00e8que que nomme TSAV_LIBRARY")):
            with mock.patch.object(library._library, "tsav_version", lambda: 7):
                ran = tsav("--lang", language, "--version", TSAV_LIBRARY=place)
            lines = ran.out.splitlines()
            self.assertEqual((ran.status, len(lines)), (0, 3))
            self.assertTrue(lines[1].endswith(f" {library.VERSION if INSTALLED else 7}, {place}"), lines[1])
            self.assertTrue(lines[2].endswith(unknown), lines[2])

    def test_not_read_and_not_written(self):
        folder = str(catalogue.TOP)
        for arguments, words in (
            (("explain", folder), ("it is a folder", "c'est un dossier")),
            (("explain", folder + "/no.sheet"), ("there is no such file or folder", "il n'y a pas de fichier ou de dossier de ce nom")),
        ):
            for language, said in zip(("en", "fr"), words):
                ran = tsav("--lang", language, *arguments)
                self.assertEqual((ran.status, ran.out), (2, ""))
                self.assertTrue(ran.err.startswith("tsav: ") and ran.err.endswith(f"{said}\n"), ran.err)

    @unittest.skipUnless(Path("/dev/full").exists(), "there is no /dev/full")
    def test_disk_full(self):
        for language, said in (("en", "the disk is full"), ("fr", "le disque est plein")):
            with open("/dev/full", "wb") as full:
                done = subprocess.run(
                    COMMAND + ["explain", "--refusal", "1", "--lang", language], stdout=full, stderr=subprocess.PIPE, check=False
                )
            self.assertEqual(done.returncode, 2)
            self.assertTrue(done.stderr.decode().endswith(f"{said}\n"), done.stderr)
