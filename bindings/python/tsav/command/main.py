"""The frame: the command's arguments, its language, its statuses, and what is written.

A subcommand's module has `NAME`, `add(commands, common)`, which adds its parser with `run` as a default, and `run(options)`, which
gives an Answer or raises Failure. Add the module to SUBCOMMANDS; `--lang` and `--json` are every subcommand's.
"""

import argparse
import json
import os
import sys

from tsav.command import (
    arguments,
    block,
    compare,
    explain,
    exports,
    files,
    fluctuation,
    imports,
    messages,
    movement,
    operational,
    reports,
    shares,
    template,
    versions,
    warn,
)
from tsav.command.answer import FAILED, Failure
from tsav.command.messages import _

SUBCOMMANDS = (explain, imports, template, exports, warn, compare, reports, block, shares, movement, operational, fluctuation)


def main(arguments=None) -> int:
    given = sys.argv[1:] if arguments is None else list(arguments)
    if sys.stderr is None:
        sys.stderr = open(os.devnull, "w", encoding="utf-8")
    # A letter that the terminal doesn't have is no reason to say nothing.
    for stream in filter(None, (sys.stdout, sys.stderr)):
        stream.reconfigure(errors="replace")
    try:
        _choose_language(given)
        _write("")
        try:
            options = _parser().parse_args(given)
        except SystemExit:
            # After a help or the versions; or after an error, which went to the other stream.
            _write("")
            raise
        except OSError as error:
            raise _unwritten(error) from error
        answer = options.run(options)
        _write(json.dumps(answer.value, indent=2) + "\n" if options.json else answer.text)
        return answer.status
    except Failure as failure:
        _complain(failure)
        return FAILED
    except KeyboardInterrupt:
        return 130


def _complain(failure: Failure) -> None:
    """The status tells where nothing else can."""
    try:
        print(f"tsav: {failure}", file=sys.stderr, flush=True)
    except OSError:
        # Python would try again at its end, and end with another status.
        os.dup2(os.open(os.devnull, os.O_WRONLY), sys.stderr.fileno())


def _choose_language(arguments) -> None:
    """The one that is asked for, or the locale's: where that can't be had, it is said, and English is."""
    asked = messages.asked(arguments)
    if asked:
        messages.choose(asked)
        return
    try:
        messages.choose(messages.of_locale(os.environ))
    except Failure as failure:
        _complain(failure)
        messages.choose("en")


def _parser() -> arguments.Parser:
    common = argparse.ArgumentParser(add_help=False, allow_abbrev=False)
    _add_language(common, argparse.SUPPRESS)
    common.add_argument("--json", action="store_true", help=_("write the answer as JSON, for scripts"))
    parser = arguments.Parser(
        prog="tsav",
        description=_("Chapters 8 and 11 of the guideline on life insurance capital, to the cent, by proved calls."),
    )
    parser.add_argument("--version", action=_Version, nargs=0, help=_("name the versions of the package, the library and the toolchain"))
    _add_language(parser, None)
    commands = parser.add_subparsers(required=True, metavar=_("SUBCOMMAND"), title=_("subcommands"))
    for subcommand in SUBCOMMANDS:
        subcommand.add(commands, common)
    return parser


class _Version(argparse.Action):
    """argparse's own would have them looked up at every call."""

    def __call__(self, parser, namespace, values, option_string=None):
        print(versions.text())
        parser.exit()


def _add_language(parser, default) -> None:
    parser.add_argument(
        "--lang", choices=messages.LANGUAGES, default=default, help=_("the language of the answer; otherwise the locale's")
    )


def _write(text: str) -> None:
    """All at once, behind what was written before."""
    try:
        files.opened(sys.stdout).write(text)
        sys.stdout.flush()
    except OSError as error:
        # Nothing is left for Python to write at its end, where it would fail again.
        if sys.stdout is not None:
            os.dup2(os.open(os.devnull, os.O_WRONLY), sys.stdout.fileno())
        raise _unwritten(error) from error


def _unwritten(error: OSError) -> Failure:
    return Failure(_("the answer can't be written: {why}").format(why=files.why(error)))
