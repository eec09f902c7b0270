"""RO's part of the chain, section 8.2: the volumes of each territory, their growth, the general part, and one rounding at the end."""

from fractions import Fraction

import tsav
from tsav.command import labels, money
from tsav.command.chain import STEP, Chain, check, named
from tsav.command.messages import N_, _

VOLUMES = range(1, 9)

# Sections 8.2.1 and 8.2.3, in ten-thousandths.
FACTORS = (250, 250, 250, 175, 40, 15, 10, 10)
GENERAL = {1: 575, 2: 450, 3: 250}
_TEN_THOUSAND = 10_000

_BOTH = labels.Label(N_("{name}: previous period, both together"), "8.2.2")
_GROWTH = labels.Label(N_("{name}: growth above 120%"), "8.2.2")
_VOLUME_CHARGE = labels.Label(N_("{name}: charge of the volume"), "8.2.1")
_GROWTH_CHARGE = labels.Label(N_("{name}: charge of the growth"), "8.2.2")
_CHARGE = labels.Label(N_("{name}: both charges"), "8.2")
_VOLUME_CHARGES = labels.Label(N_("charges of the volumes of {territory}"), "8.2.1")
_GROWTH_CHARGES = labels.Label(N_("charges of the growth of {territory}"), "8.2.2")
_FACTOR = N_("factor: {name}")
_ABOVE = labels.Label(N_("part of the previous period above which growth is charged"), "8.2.2")
_CURRENT = labels.Label(N_("{name}: current period"), "8.2.1")
_PRIOR = labels.Label(N_("{name}: previous period"), "8.2.2")
_TERRITORY = labels.Label(N_("charges of {territory}"), "8.2")
_GENERAL_CHARGE = labels.Label(N_("charge: {name}"), "8.2.3")
_GENERAL_PART = labels.Label(N_("general part"), "8.2.3")
_SUM = labels.Label(N_("sum of all charges, before it is rounded up"), "8.1")


def charge_factors(chain: Chain) -> None:
    """Those of section 8.2, once for all territories."""
    for klass, factor in zip(VOLUMES, FACTORS):
        name = _(_FACTOR).format(name=labels.label("VOL", 1, klass).name)
        chain.factor(f"factor.volume.{klass}", labels.Label(name, "8.2.1"), Fraction(factor, _TEN_THOUSAND))
    for klass, factor in GENERAL.items():
        name = _(_FACTOR).format(name=labels.label("GEN", 0, klass).name)
        chain.factor(f"factor.general.{klass}", labels.Label(name, "8.2.3"), Fraction(factor, _TEN_THOUSAND))
    chain.factor("factor.growth", named(_ABOVE), Fraction(6, 5))


def operational(chain: Chain) -> None:
    numbers: list = []
    charges = Fraction(0)
    for territory in chain.territories:
        charges += _territory(chain, territory, numbers)
    charges += _general(chain)
    general = [chain.entered("GEN", 0, klass).first for klass in GENERAL]
    exact = chain.add("operational.sum", named(_SUM), charges, STEP)
    ro = tsav.operational(numbers, general)
    check("operational.ro", ro == chain.report["TOT", 0, 2] and ro - 1 < exact <= ro)
    chain.reported("operational.ro", "TOT", 0, 2)


def _territory(chain: Chain, territory: int, numbers: list) -> Fraction:
    """The charges of its eight volumes, which are put to the numbers of the call."""
    charges = [_volume(chain, territory, klass, numbers) for klass in VOLUMES]
    name = labels.block_name("VOL", territory)
    for ending, of, amounts in zip(("volume_charge", "growth_charge"), (_VOLUME_CHARGES, _GROWTH_CHARGES), zip(*charges)):
        chain.add(f"territory.{territory}.{ending}", of._replace(name=_(of.name).format(territory=name)), sum(amounts), STEP)
    words = _TERRITORY._replace(name=_(_TERRITORY.name).format(territory=name))
    return chain.add(f"territory.{territory}.charge", words, sum(map(sum, charges)), STEP)


def _volume(chain: Chain, territory: int, klass: int, numbers: list) -> tuple:
    """The charge of the volume, and that of its growth."""
    at = f"territory.{territory}.volume.{klass}"
    volume = labels.label("VOL", territory, klass).name

    def words(of: labels.Label) -> labels.Label:
        return of._replace(name=_(of.name).format(name=volume))

    current = chain.entry(f"{at}.current", "VOL", territory, klass, words(_CURRENT))
    prior = chain.entry(f"{at}.prior", "VOL", territory, klass, words(_PRIOR), second=True)
    bought = labels.line_name("ACQ", territory, klass)
    acquired = chain.entry(f"{at}.acquired", "ACQ", territory, klass, labels.label("ACQ", territory, klass)._replace(name=bought))
    both = chain.add(f"{at}.both", words(_BOTH), prior + acquired, STEP)
    growth = chain.add(f"{at}.growth", words(_GROWTH), max(Fraction(0), current - both * Fraction(6, 5)), STEP)
    factor = Fraction(FACTORS[klass - 1], _TEN_THOUSAND)
    # The call takes no larger one, and no current volume grows above 120 % of the limit.
    numbers += [int(current), min(int(both), money.LARGEST_AMOUNT)]
    charges = (
        chain.add(f"{at}.volume_charge", words(_VOLUME_CHARGE), factor * current, STEP),
        chain.add(f"{at}.growth_charge", words(_GROWTH_CHARGE), factor * growth, STEP),
    )
    chain.add(f"{at}.charge", words(_CHARGE), sum(charges), STEP)
    return charges


def _general(chain: Chain) -> Fraction:
    charges = Fraction(0)
    for klass, factor in GENERAL.items():
        words = labels.label("GEN", 0, klass)
        amount = chain.entry(f"general.{klass}.amount", "GEN", 0, klass, words)
        charge = _GENERAL_CHARGE._replace(name=_(_GENERAL_CHARGE.name).format(name=words.name))
        charges += chain.add(f"general.{klass}.charge", charge, amount * Fraction(factor, _TEN_THOUSAND), STEP)
    return chain.add("general.charge", named(_GENERAL_PART), charges, STEP)
