"""The command's arguments: Python's argparse, with its frame in the user's language whatever the version of Python.

argparse looks its own sentences up in the process's catalogue, which messages.py sets. What differs between the versions, or is looked up in some
of them alone, is said here: the usage, the headings, the help, and how an error begins.
"""

import argparse

from tsav.command.messages import N_, _, language
from tsav.command.money import NO_BREAK

# What argparse itself says to those who type these commands, in every version from 3.9 on.
OF_ARGPARSE = (
    N_("expected one argument"),
    N_("expected at most one argument"),
    N_("expected at least one argument"),
    N_("not allowed with argument %s"),
    N_("ignored explicit argument %r"),
    N_("the following arguments are required: %s"),
    N_("ambiguous option: %(option)s could match %(matches)s"),
    N_("invalid choice: %(value)r (choose from %(choices)s)"),
)


class Parser(argparse.ArgumentParser):
    """Of the command and of each subcommand."""

    def __init__(self, **given):
        given.setdefault("formatter_class", Formatter)
        helps = given.pop("add_help", True)
        super().__init__(**given, add_help=False, allow_abbrev=False, exit_on_error=False)
        self._positionals.title, self._optionals.title = _("arguments"), _("options")
        if helps:
            self.add_argument("-h", "--help", action="help", help=_("show this help"))

    def parse_args(self, args=None, namespace=None):
        found, rest = self.parse_known_args(args, namespace)
        if rest:
            self.error(_("unknown arguments: {arguments}").format(arguments=" ".join(rest)))
        return found

    def parse_known_args(self, args=None, namespace=None):
        try:
            return super().parse_known_args(args, namespace)
        except argparse.ArgumentError as error:
            said = str(error.message)
            if error.argument_name:
                said = _("argument {name}: {message}").format(name=error.argument_name, message=said)
            return self.error(said)

    def error(self, message):
        self.exit(2, self.format_usage() + _("{program}: error: {message}").format(program=self.prog, message=message) + "\n")


class Formatter(argparse.HelpFormatter):
    """A usage of several lines has all of them below the first."""

    def add_usage(self, usage, actions, groups, prefix=None):
        if prefix is None:
            prefix = _("usage: ")
        if usage and usage is not argparse.SUPPRESS:
            usage = usage.replace("\n", "\n" + " " * len(prefix))
        super().add_usage(usage, actions, groups, prefix)

    def start_section(self, heading):
        # argparse puts the colon behind it.
        super().start_section(heading if language() == "en" or not heading else heading + NO_BREAK)


class AsWritten(Formatter, argparse.RawDescriptionHelpFormatter):
    """What stands below the arguments keeps its lines."""
