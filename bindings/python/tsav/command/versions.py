"""What `tsav --version` names: the package, the library's calls, and the toolchain that the library was built with."""

import os
from pathlib import Path
from typing import Optional

import tsav
from tsav.command.messages import _
from tsav.command.visible import visible

TOOLCHAIN = "rattle-toolchain"

# Installed, the file of the toolchain's identity is beside the package's; in a checkout, at its top.
_PACKAGE = Path(tsav.__file__).resolve().parent
_TOP = _PACKAGE.parents[2]


def calls() -> int:
    """By the library that was loaded."""
    return tsav._library.tsav_version()


def other() -> Optional[str]:
    """The library that the environment names, which may be another one than the package was installed with."""
    return os.environ.get("TSAV_LIBRARY") or None


def toolchain() -> Optional[str]:
    """None where it isn't known: a library has no word of it, and the package's is that of the library that came with it."""
    if other():
        return None
    for folder in (_PACKAGE, _TOP):
        if (folder / TOOLCHAIN).is_file():
            return (folder / TOOLCHAIN).read_text(encoding="utf-8").strip()
    return None


def toolchain_words() -> str:
    """The same for people."""
    if other():
        return _("not known of the library that TSAV_LIBRARY names")
    return toolchain() or _("unknown")


def library_words() -> str:
    return _("calls of version {calls}").format(calls=calls())


def text() -> str:
    loaded = f"{library_words()}, {visible(other())}" if other() else library_words()
    return "\n".join(
        (
            f"tsav {tsav.__version__}",
            _("library: {library}").format(library=loaded),
            _("toolchain: {toolchain}").format(toolchain=toolchain_words()),
        )
    )
