"""What a subcommand gives: an Answer, or a Failure where there is none."""

from typing import Any, NamedTuple

# As the programs have them.
DONE = 0
REFUSED = 1
FAILED = 2


class Answer(NamedTuple):
    """The status; what people read; and the same as numbers, texts and lists, for `--json`."""

    status: int
    text: str
    value: Any


class Failure(Exception):
    """Something could not be read, written or used: told in one sentence, with status 2."""
