"""What people read, in English and French.

The English text stands in the source, in `_("..")`, in `ngettext` where it counts something, or in `N_` where a table has it and
`_` is called later. The French one stands in locale/fr/, a file for each module, by the words of the guideline, which is French
first; `bindings/messages` makes of them the catalogue that is read here. Neither knows anything of the other's words for a figure,
a code or a place: these are put in by `.format`, by name.
"""

import gettext
import os
from pathlib import Path
from typing import Optional

from tsav.command.answer import Failure

LANGUAGES = ("en", "fr")
DOMAIN = "tsav"
FOLDER = Path(__file__).resolve().parent / "locale"

_catalogue = gettext.NullTranslations()
_language = "en"


def N_(message: str) -> str:
    """Marks a message that is looked up later."""
    return message


def _(message: str) -> str:
    return _catalogue.gettext(message)


def ngettext(one: str, many: str, count: int) -> str:
    return _catalogue.ngettext(one, many, count)


def language() -> str:
    return _language


def asked(arguments) -> Optional[str]:
    """The language that `--lang` names, wherever it stands. argparse says of any other name what it takes."""
    for position, argument in enumerate(arguments):
        if argument == "--":
            break
        if argument == "--lang" and position + 1 < len(arguments):
            named = arguments[position + 1]
        elif argument.startswith("--lang="):
            named = argument.partition("=")[2]
        else:
            continue
        if named in LANGUAGES:
            return named
    return None


def of_locale(environment) -> str:
    """English where the locale names neither. As gettext has it, LANGUAGE's list is for a locale that has a language at all."""
    locale = next((environment[name] for name in ("LC_ALL", "LC_MESSAGES", "LANG") if environment.get(name)), "C")
    if locale.partition(".")[0] in ("C", "POSIX"):
        return "en"
    for name in [*environment.get("LANGUAGE", "").split(":"), locale]:
        short = name.replace("-", "_").partition(".")[0].partition("_")[0].lower()
        if short in LANGUAGES:
            return short
    return "en"


def choose(name: str) -> None:
    """Has all that follows said in this language."""
    global _catalogue, _language
    if name == "en":
        catalogue = gettext.NullTranslations()
    else:
        try:
            catalogue = gettext.translation(DOMAIN, FOLDER, languages=[name])
        except OSError as error:
            raise Failure("the French messages are not built: bindings/messages builds them, with gettext") from error
    _catalogue, _language = catalogue, name
    # argparse looks its own sentences up in the process's domain, by the environment's language.
    os.environ["LANGUAGE"] = name
    gettext.bindtextdomain(DOMAIN, str(FOLDER))
    gettext.textdomain(DOMAIN)
