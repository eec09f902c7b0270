"""Text as it stands in a file, with each of its characters one cell wide, so that a caret stands under the one that is meant."""

import unicodedata

# What the system's pictures of control characters count from.
_PICTURES = 0x2400
_DELETE = 0x7F
_DELETE_PICTURE = "\u2421"
_REPLACEMENT = "\ufffd"


def decoded(line: bytes) -> str:
    """As UTF-8; what isn't that, a character for each byte."""
    try:
        return line.decode("utf-8")
    except UnicodeDecodeError:
        return line.decode("latin-1")


def visible(text: str) -> str:
    """Nothing in it moves a terminal's cursor, and it has as many cells as characters."""
    return "".join(_cell(character) for character in text)


def _cell(character: str) -> str:
    if ord(character) < 0x20:
        return chr(_PICTURES + ord(character))
    if ord(character) == _DELETE:
        return _DELETE_PICTURE
    if unicodedata.category(character) == "Zs":
        return character if character == " " else "\u2423"
    if not character.isprintable() or unicodedata.combining(character) or unicodedata.east_asian_width(character) in "WF":
        return _REPLACEMENT
    return character
