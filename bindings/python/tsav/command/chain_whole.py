"""The whole chain of a sheet, and what lies between the chains of two sheets."""

from fractions import Fraction
from typing import NamedTuple

from tsav.command import labels
from tsav.command.chain import Chain, check, total
from tsav.command.chain_block import block, factors
from tsav.command.chain_operational import charge_factors, operational
from tsav.command.messages import N_, _


def build(sheet: bytes) -> Chain:
    """Of an accepted sheet."""
    chain = Chain(sheet)
    factors(chain)
    charge_factors(chain)
    for number in chain.blocks:
        block(chain, number)
    operational(chain)
    total(chain)
    return chain


class Link(NamedTuple):
    """What a link of the chain brings to the buffer, in the last sheet and in this one. A credit brings less than nothing."""

    key: str
    name: str
    before: Fraction
    now: Fraction

    @property
    def change(self) -> Fraction:
        return self.now - self.before


_K = N_("K of block {number}")
_DIVIDEND = N_("dividend credit, block {number}")
_WHOLE = (
    ("total.group", -1, N_("group and deposit credits")),
    ("total.guarantee", 1, N_("segregated fund guarantees")),
    ("operational.ro", 1, N_("operational risk, RO")),
    ("total.by_scalar", 1, N_("the scalar")),
)


def links(before: Chain, now: Chain) -> list:
    """The blocks' K, the credits, the guarantee requirement, RO and what the scalar adds: they total the buffers."""
    found = [_link(before, now, f"block.{number}.k", _(_K).format(number=number)) for number in _both(before.blocks, now.blocks)]
    dividends = _both(before.dividends, now.dividends)
    found += [_link(before, now, f"dividend.{number}", _(_DIVIDEND).format(number=number), -1) for number in dividends]
    products = _both(before.products, now.products)
    found += [_link(before, now, f"product.{number}", labels.line_name("CRD", 0, number), -1) for number in products]
    found += [_link(before, now, key, _(name), sign) for key, sign, name in _WHOLE]
    for chain, sums in ((before, [link.before for link in found]), (now, [link.now for link in found])):
        check("total.buffer", sum(sums) == chain.amount("total.buffer"))
    return found


def _both(before: list, now: list) -> list:
    return sorted({*before, *now})


def _link(before: Chain, now: Chain, key: str, name: str, sign: int = 1) -> Link:
    amounts = [sign * chain.amount(key) if key in chain.figures else Fraction(0) for chain in (before, now)]
    return Link(key, name, *amounts)
