"""What each refusal means, and what is to be mended, as the guide has it: for what no sheet shows, and for the other subcommands."""

from typing import NamedTuple

import tsav
from tsav.command.messages import N_, _


class Words(NamedTuple):
    what: str
    mend: str


_WORDS = {
    1: (
        N_("The sheet has more than 25,160 bytes, which are 629 lines."),
        N_("Look for empty or doubled lines, and for carriage returns, with which 614 lines are too long."),
    ),
    2: (
        N_("The length isn't a multiple of 40 bytes, and all whole lines keep the layout."),
        N_("Look past the last whole line: for a last line that is too short or has no line feed, and for an empty line."),
    ),
    3: (
        N_("The line breaks the layout."),
        N_("Type the last digits in columns 6, 9, 24 and 39, without signs and leading zeros, and a line feed in column 40."),
    ),
    4: (N_("There is no such code."), N_("The codes are RSK, OTH, MOR, VOL, ACQ, GEN and CRD, in capitals; a sheet in thousands has small letters.")),
    5: (N_("The block is none of this code."), N_("RSK and OTH have 1 to 32, MOR, VOL and ACQ 1 to 16, GEN 0, CRD 0 and 17 to 32.")),
    6: (
        N_("The class is none of this code."),
        N_("RSK has 1 to 7, OTH 1 to 3, MOR 1, VOL and ACQ 1 to 8, GEN 1 to 5, CRD 1 to 16 in block 0 and 1 in blocks 17 to 32."),
    ),
    7: (N_("An amount is above 99,999,999,999,999 cents."), N_("Look for an amount that is in other units.")),
    8: (
        N_("There is a second amount where there is none."),
        N_("It is 0 for OTH, ACQ, GEN and CRD, and level and trend of expenses is 0."),
    ),
    9: (N_("A level and trend part is above its gross component."), N_("The second amount of an RSK line is at most the first.")),
    10: (N_("The scalar is outside 1 to 20000 ten-thousandths."), N_("Type 10000 for 1.")),
    11: (N_("A line with this code, block and class stood before."), N_("Take out or renumber one of the two.")),
    12: (N_("There is no scalar line."), N_("Add GEN class 4, with 10000 for 1.")),
    13: (
        N_("The credits that belong to no block are above what is left: sum of K, less the dividend credits, plus guarantee requirement and RO."),
        N_("Lower the CRD lines of block 0 and GEN class 5: together they may be all that is left."),
    ),
    14: (
        N_("The room that was lent is shorter than the answer."),
        N_("It is the program that called that lends it: tsav.h has the longest lengths. These commands lend enough."),
    ),
    15: (
        N_("The list of volumes is longer than 256 numbers, or isn't a multiple of 16."),
        N_("Give 16 numbers for each territory: eight pairs, this year and the year before."),
    ),
    16: (
        N_("The credit of a MOR line is above level and trend of mortality in its block."),
        N_("Look at the sums of the MOR lines, and at the second amount of RSK class 1 of the same block, which is 0 where that line is missing."),
    ),
    17: (
        N_("A dividend credit is above its block's K, or the block has no RSK or OTH line."),
        N_("Lower the CRD line to at most K of its block; of a block without lines, take it out or type these lines."),
    ),
    18: (N_("There is no such row of fluctuation factors."), N_("The rows are 1 to 7.")),
    19: (
        N_("The line doesn't come after the one before it."),
        N_("Lines ascend by code, in the order RSK, OTH, MOR, VOL, ACQ, GEN, CRD, then by block, then by class."),
    ),
    20: (
        N_("Converting from cents, an amount isn't whole thousands of dollars."),
        N_("Its last five digits are to be 00000: round it yourself, up or down as it must be, or send the sheet in cents."),
    ),
    21: (
        N_("Converting from thousands, an amount is above 999999999: in cents it has more than 14 digits."),
        N_("Look for an amount that is in dollars or cents already."),
    ),
    22: (
        N_("Raised, the component of the risk is above 99,999,999,999,999 cents."),
        N_("Take a smaller correction; the other risks are answered."),
    ),
    23: (
        N_("A part's margin is negative, or all margins are zero."),
        N_("Nothing in the amounts is wrong: the marginal method divides no such K."),
    ),
    24: (
        N_("There are more than 60 sheets."),
        N_("Give at most 60 sheets at a time; the first 60 are answered, and there is no summary."),
    ),
    25: (
        N_("The last sheet isn't closed."),
        N_("Type a line of 39 minus signs and a line feed after each sheet; the sheets before are answered, and there is no summary."),
    ),
}

NUMBERS = tuple(_WORDS)


def words(number: int) -> Words:
    return Words(*(_(text) for text in _WORDS[number]))


def sentence(refusal: tsav.Refused, place: str = "") -> str:
    """A call's refusal in words, with the name of its place where it has one."""
    said = words(refusal.number)
    where = f" ({place})" if place else ""
    return _("Refusal {number}{where}: {what} {mend}").format(number=refusal.number, where=where, what=said.what, mend=said.mend)
