"""All faults of a sheet. Each is found by the call itself, on the sheet with the earlier ones set right or taken out; the first is
thus the call's own. What is said of a fault is worked out of the line that the call names."""

from typing import Optional

import tsav
from tsav.command import columns, lines, totals, whole
from tsav.command.faults import Fault, NotTested, key_of, shown
from tsav.command.labels import line_name
from tsav.command.rows import Row, Rows
from tsav.command.visible import decoded


def refused(call, data: bytes) -> Optional[tsav.Refused]:
    try:
        call(data)
    except tsav.Refused as refusal:
        return refusal
    return None


# What is told of a refusal, and how its line is set right. The convert call never gives 12, 13, 16 and 17, and the sheet call never 20
# and 21. An answer of False ends it.
_ANSWERS = {
    2: lines.broken,
    3: lines.broken,
    4: lines.code,
    5: lines.block,
    6: lines.klass,
    8: lines.second,
    9: lines.level_and_trend,
    10: lines.scalar,
    11: lines.twice,
    12: totals.no_scalar,
    13: totals.credits,
    16: totals.mortality_credit,
    17: totals.dividend_credit,
    19: lines.order,
    20: lines.whole_thousands,
    21: lines.too_large,
}


class Finder:
    """Finds the faults of one sheet by one call, the sheet call or the convert call."""

    def __init__(self, data: bytes, call=tsav.sheet):
        self.call = call
        self.faults: list = []
        self.not_tested: list = []
        # Refusals 16 and 17 that are told, with their blocks.
        self.told: set = set()
        self.rows = Rows(b"")
        self.first = refused(call, data)
        if self.first:
            self._find(data)

    def _find(self, data: bytes) -> None:
        refusal: Optional[tsav.Refused] = self.first
        if refusal.number != 1:
            text = whole.text(self, refusal, data)
            if text is None:
                self.not_tested.append(NotTested(None, ()))
                return
            self.rows = Rows(text)
            data, refusal = text, self.refused(text)
        while refusal:
            if refusal.number == 1:
                whole.too_long(self, data)
                return
            if _ANSWERS[refusal.number](self, refusal) is False:
                return
            before, data = data, self.rows.data()
            if data == before:
                raise tsav.ContractBroken(f"refusal {refusal.number}, and nothing that it refuses")
            refusal = self.refused(data)
        if self.call is tsav.sheet:
            totals.untested(self)

    def refused(self, data: bytes) -> Optional[tsav.Refused]:
        return refused(self.call, data)

    def add(self, refusal, cause: str, title: str, row: Optional[Row] = None, **more) -> None:
        if row is not None:
            name = line_name(*key_of(row.line)) if row.key else ""
            more = {"line": row.number, "name": name, "lines": (shown(row),), "set_right": row.set_right, **more}
        self.faults.append(Fault(refusal.number, cause, title, **more))

    def thousands(self) -> bool:
        """Whether it is a sheet in thousands of dollars: the convert call has it by the letters of line 1; for the sheet call, which takes no
        such sheet, every code that there is has small letters."""
        codes = [decoded(row.now[: columns.CODE]) for row in self.rows.current]
        if self.call is tsav.convert:
            return codes[0].islower()
        known = [code for code in codes if code.upper() in columns.CODES]
        return bool(known) and all(code.islower() for code in known)

    def letters(self):
        """As the sheet's codes are to be written."""
        return str.lower if self.thousands() else str.upper

    def cents(self, amount: int) -> int:
        return amount * lines.THOUSANDS if self.thousands() else amount

    def touched(self, *wanted) -> tuple:
        """The touched lines that may be one of these: a code, its blocks and its class, None for any."""
        return tuple(
            sorted(row.number for row in self.rows.all if row.touched and any(row.may_be(*some) for some in wanted))
        )

    def all_but_scalar(self) -> tuple:
        """The touched lines that may be other ones than the scalar's, which is all that isn't compared."""
        scalar = columns.key(*columns.SCALAR)
        return tuple(sorted(row.number for row in self.rows.all if row.touched and row.figures and row.key != scalar))
