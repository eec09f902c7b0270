"""A block's part of the chain, section 11.2, after the credit of its MOR line, section 11.1.1."""

from fractions import Fraction

import tsav
from tsav.command import compared, labels
from tsav.command.chain import CALL, SQUARE, STEP, Chain, check, named
from tsav.command.messages import N_, _

RISKS = range(1, 8)

# Section 11.2.1, in quarters.
_CORRELATION = (
    (4, -1, 2, -1, 1, 0, 2),
    (-1, 4, -1, 2, 1, -1, 1),
    (2, -1, 4, 1, 2, 0, 2),
    (-1, 2, 1, 4, 2, -1, 2),
    (1, 1, 2, 2, 4, -2, 2),
    (0, -1, 0, -1, -2, 4, -1),
    (2, 1, 2, 2, 2, -1, 4),
)

_AGGREGATE = labels.Label(N_("aggregate of survival and death products"), "11.1.1", "CR_agg")
_CREDIT = labels.Label(N_("credit of survival and death products"), "11.1.1", "CR_S + CR_D − CR_agg")
_CREDIT_AND_MARKET = labels.Label(N_("credit and market risk together"), "11.2.2", "A")
_SAVING = labels.Label(N_("saving by diversification"), "11.2.4", "U − K")
_AFTER = N_("{name}, after the credit")
_NET = N_("{name}, half of level and trend taken off")
_LEVEL_AND_TREND = N_("{name}, level and trend")
_WEIGHTED = N_("{name}: sum of the correlations times the amounts")
_PRODUCT = N_("{name}: product")
_Q = labels.Label(N_("sum of the products"), "11.2.1", "Q")
_FLOOR = labels.Label(N_("floor: the largest amount"), "11.2.1", "max(IRi − 0.5 × LTi)")
_RADICAND = labels.Label(N_("what D is the root of, at the I that is shown"), "11.2.2", "A² + A × I + I²")
_BETWEEN = labels.Label(N_("correlation of credit and market risk with insurance risk"), "11.2.2")
_HALF = labels.Label(N_("part of level and trend that is taken off"), "11.2.1")


def factors(chain: Chain) -> None:
    """Those of section 11.2, once for all blocks."""
    for i, row in zip(RISKS, _CORRELATION):
        for j, quarters in zip(RISKS, row):
            one, other = (labels.label("RSK", 1, risk).name for risk in (i, j))
            name = _("correlation of {one} and {other}").format(one=one, other=other)
            chain.factor(f"factor.correlation.{i}.{j}", labels.Label(name, "11.2.1", f"ρ{i}{j}"), Fraction(quarters, 4))
    chain.factor("factor.half", named(_HALF), Fraction(1, 2))
    chain.factor("factor.between", named(_BETWEEN), Fraction(1, 2))


def block(chain: Chain, number: int) -> None:
    """The figures of one block."""
    at = f"block.{number}"
    numbers = _entries(chain, number)
    credit = _credit(chain, number)
    if credit is not None:
        numbers[0] -= credit
        numbers[1] -= credit
        for place, ending, symbol in ((0, "ir", "IR1"), (1, "lt", "LT1")):
            words = chain[f"{at}.risk.1.{ending}"]
            name = _(_AFTER).format(name=words.name)
            chain.add(f"{at}.risk.1.{ending}_after", labels.Label(name, words.section, symbol), numbers[place], STEP)
    found = tsav.block(numbers)
    given = tuple(chain.report["BLK", number, item] for item in range(1, 6))
    check(f"{at}.k", given == found[:5])
    _steps(chain, number, numbers, found)
    _shares(chain, number, numbers)


def _entries(chain: Chain, number: int) -> list:
    """The 17 numbers, as they are entered."""
    found = []
    for risk in RISKS:
        words = labels.label("RSK", number, risk)
        key = f"block.{number}.risk.{risk}"
        found.append(int(chain.entry(f"{key}.ir", "RSK", number, risk, words)))
        level = words._replace(name=_(_LEVEL_AND_TREND).format(name=words.name), first=words.second)
        found.append(int(chain.entry(f"{key}.lt", "RSK", number, risk, level, second=True)))
    for klass, ending in enumerate(("pc", "credit", "market"), 1):
        found.append(int(chain.entry(f"block.{number}.{ending}", "OTH", number, klass, labels.label("OTH", number, klass))))
    return found


def _credit(chain: Chain, number: int):
    """Of the MOR line: the credit by the call; the aggregate, which is S and T less the credit, is looked at by its square."""
    line = chain.lines.get(("MOR", number, 1))
    if line is None:
        return None
    at = f"block.{number}.mor"
    words = labels.label("MOR", number, 1)
    names = labels.amounts("MOR", 1)
    chain.entry(f"{at}.s", "MOR", number, 1, words._replace(name=names[0]))
    chain.entry(f"{at}.t", "MOR", number, 1, words._replace(name=names[1], first=words.second), second=True)
    credit = compared.mortality_credit(line)
    s, t = line.first, line.second
    aggregate = s + t - credit
    twice = 2 * s * s + 2 * t * t - 3 * s * t
    check(f"{at}.credit", 2 * aggregate**2 >= twice and (aggregate == 0 or 2 * (aggregate - 1) ** 2 < twice))
    chain.add(f"{at}.aggregate", named(_AGGREGATE), aggregate, STEP)
    chain.add(f"{at}.credit", named(_CREDIT), credit, CALL, _("sheet call, of this MOR line alone"))
    return credit


def _steps(chain: Chain, number: int, numbers: list, found: tsav.Figures) -> None:
    """I, D, U, LT and K, each beside the step that leads to it. In half cents, as I and D are."""
    at = f"block.{number}"
    ys = [2 * numbers[2 * risk - 2] - numbers[2 * risk - 1] for risk in RISKS]
    pc, market = numbers[14], numbers[15] + numbers[16]
    quarters = _correlated(chain, number, ys)
    check(f"{at}.i", _insurance(ys, quarters, found.i - 2 * pc))
    chain.reported(f"{at}.i", "BLK", number, 1, parts=2)
    chain.add(f"{at}.a", named(_CREDIT_AND_MARKET), market, STEP)
    check(f"{at}.d", _diversified(2 * market, found.i, found.d))
    chain.add(f"{at}.radicand", named(_RADICAND), Fraction(_radicand(2 * market, found.i), 4), STEP, unit=SQUARE)
    chain.reported(f"{at}.d", "BLK", number, 2, parts=2)
    check(f"{at}.u", found.u == sum(numbers[0:14:2]) + pc + market)
    chain.reported(f"{at}.u", "BLK", number, 3)
    check(f"{at}.lt", found.lt == sum(numbers[1:14:2]))
    chain.reported(f"{at}.lt", "BLK", number, 4)
    check(f"{at}.k", _adjusted(found))
    chain.add(f"{at}.saving", named(_SAVING), found.u - found.k, STEP)
    chain.reported(f"{at}.k", "BLK", number, 5)


def _correlated(chain: Chain, number: int, ys: list) -> int:
    """Each risk's amount times the sum of its correlations with all amounts, and Q, the sum of these products: in quarters of square half cents."""
    quarters = 0
    for risk, row, y in zip(RISKS, _CORRELATION, ys):
        at = f"block.{number}.risk.{risk}"
        name = labels.label("RSK", number, risk).name

        def words(of: str, symbol: str, name: str = name) -> labels.Label:
            return labels.Label(_(of).format(name=name), "11.2.1", symbol)

        weighted = sum(factor * other for factor, other in zip(row, ys))
        chain.add(f"{at}.net", words(_NET, f"IR{risk} − 0.5 × LT{risk}"), Fraction(y, 2), STEP)
        chain.add(f"{at}.weighted", words(_WEIGHTED, f"∑ ρ{risk}j × (IRj − 0.5 × LTj)"), Fraction(weighted, 8), STEP)
        chain.add(f"{at}.product", words(_PRODUCT, ""), Fraction(y * weighted, 16), STEP, unit=SQUARE)
        quarters += y * weighted
    chain.add(f"block.{number}.q", named(_Q), Fraction(quarters, 16), STEP, unit=SQUARE)
    chain.add(f"block.{number}.floor", named(_FLOOR), Fraction(max(ys), 2), STEP)
    return quarters


def _insurance(ys: list, quarters: int, root: int) -> bool:
    """The root, before property and casualty, is the least half cents at or above that of Q and the largest y."""

    def enough(half_cents: int) -> bool:
        return half_cents >= max(ys) and 4 * half_cents**2 >= quarters

    return enough(root) and (root == 0 or not enough(root - 1))


def _radicand(a: int, i: int) -> int:
    """Of D, in square half cents."""
    return a * a + a * i + i * i


def _diversified(a: int, i: int, d: int) -> bool:
    """D is taken at the I that isn't rounded yet, which is within a half cent below the printed one."""
    return d * d >= _radicand(a, max(i - 1, 0)) and (d == 0 or (d - 1) ** 2 < _radicand(a, i))


def _adjusted(found: tsav.Figures) -> bool:
    """K is taken at the D that isn't rounded yet, so that its numerator lies between those at the ends of that half cent."""
    if found.u == 0:
        return found.k == 0
    v = 2 * found.u - found.lt
    low, high = max(found.d - 1, 0), found.d

    def more(d: int) -> int:
        return max(0, 7 * v * v - 31 * d * v + 30 * d * d)

    # Between its ends it is never above the larger one; below the smaller one only where it is 0.
    turns = low * 60 <= 31 * v <= high * 60
    least = 0 if turns else min(more(low), more(high))
    others = 48 * found.u * v + 6 * found.lt * v
    return others + least <= 60 * v * found.k and 60 * v * (found.k - 1) < others + max(more(low), more(high))


def _shares(chain: Chain, number: int, numbers: list) -> None:
    """What each part brings to K; where the call refuses that, why."""
    try:
        shares = tsav.shares(numbers)
    except tsav.Refused as refusal:
        chain.without_shares[number] = refusal.number
        return
    check(f"block.{number}.share", sum(shares) == chain.amount(f"block.{number}.k"))
    for part, share in enumerate(shares, 1):
        words = labels.label("RSK", number, part) if part <= 7 else labels.label("OTH", number, part - 7)
        chain.add(f"block.{number}.share.{part}", words._replace(section="11.2"), share, CALL, _("shares call"))
