"""Tells how probable it is that more than q of n satellites break their declared bounds, in exact
fractions.

usage: gpslog risk --p P --q Q [--satellites N | N-M]       the probability that more than Q do
       gpslog risk --p P --risk RISK [--satellites ..]      the least q for which it is at most RISK
       gpslog risk --q Q --risk RISK [--satellites ..]      the greatest p with at most RISK
       gpslog risk --p P [--satellites ..]                  the probability for q from 0 to 4
       gpslog risk --log LOG (--p P | --risk RISK | both, or either with --q Q)

It is assumed, and can't be seen in any log, that - an error of a satellite breaks its bounds with
probability at most p, which somebody has to know of the bounds that are
  declared, for these satellites, this receiver and these surroundings;
- they do so independently of one another. One wall that reflects several signals, one fault of the
constellation, one
  storm in the ionosphere breaks many at once: then these numbers mean nothing.
Under these the probability is at most the sum of C(n, k) p^k (1 - p)^(n - k) over k from q + 1 to
n, as Drevelle and
Bonnifait use it: A set-membership approach for high integrity height-aided satellite positioning,
GPS Solutions 15, 2011.
Where no more than q break theirs, and the receiver is in the search box, the region holds it.

P and RISK are decimals as 1e-5 or fractions as 1/1000. One number N of satellites gets the exact
fraction too, and several (4 to 16, if nothing is said) a table. Decimals of a probability are
rounded up, and those of a p down. The mark `few` says that an epoch of so many satellites isn't
paved at that q, which needs q + 4, and `over 8` that the settings allow no such q.

With --log the numbers of satellites are those of the log's epochs, and q is the log's where neither
Q nor both of P and RISK are given. Nothing of this enters settings, log or proof: a region speaks
of bounds and not of probability.

Exit status: 0; 1 where a file can't be read or written, or LOG is no whole log; 2 for a wrong
command line.
"""

from __future__ import annotations

import argparse
import decimal
import re
from collections import Counter
from collections.abc import Iterable, Iterator
from fractions import Fraction
from math import comb

from gpscover.command import Command
from gpscover.errors import Error, UsageError
from gpscover.log import PathLike, epochs, rules_of

Counts = list[tuple[int, int | None]]  # numbers of satellites, and how many epochs have each

MOST_SATELLITES = 64  # of an epoch of a log
MOST_OUTLIERS = 8  # that the settings allow
SHOWN_OUTLIERS = range(5)
DIGITS = 3
LONG_EXPONENT = re.compile(r"[eE][+-]?[\d_]{4}")  # of a fraction that no memory holds
ASSUMED = (
    "assumed: each satellite's error breaks its bounds with probability at most p, and they do so independently;",
    "where one cause breaks many at once (a wall, a fault of the constellation) these numbers mean nothing",
)


def chance_of_more(satellites: int, outliers: int, p: Fraction) -> Fraction:
    """The probability that more than so many satellites break their bounds, if each does with probability p."""

    def chance(counts: Iterable[int]) -> Fraction:
        return sum((comb(satellites, k) * p**k * (1 - p) ** (satellites - k) for k in counts), Fraction(0))

    # Whichever has fewer summands.
    if 2 * outliers < satellites:
        return 1 - chance(range(outliers + 1))
    return chance(range(outliers + 1, satellites + 1))


def least_outliers(satellites: int, p: Fraction, risk: Fraction) -> int:
    """The least q for which the probability is at most the risk."""
    return next(q for q in range(satellites + 1) if chance_of_more(satellites, q, p) <= risk)


def greatest_p(satellites: int, outliers: int, risk: Fraction) -> tuple[Fraction, Fraction | None]:
    """The greatest p of three digits that is borne, and the next one, which isn't; (1, None) where each p is.

    The probability grows with p, so p is found by halving: first its exponent, then its digits.
    """

    def is_borne(p: Fraction) -> bool:
        return chance_of_more(satellites, outliers, p) <= risk

    if is_borne(Fraction(1)):
        return Fraction(1), None
    unit = Fraction(1, 10**DIGITS)
    while not is_borne(unit * 10 ** (DIGITS - 1)):
        unit /= 10
    low, high = 10 ** (DIGITS - 1), 10**DIGITS
    while high - low > 1:
        middle = (low + high) // 2
        low, high = (middle, high) if is_borne(middle * unit) else (low, middle)
    return low * unit, high * unit


def decimal_of(value: Fraction, rounding: str = decimal.ROUND_CEILING) -> str:
    """A number as a decimal of three digits, rounded up where nothing else is said."""
    if value == 0:
        return "0"
    context = decimal.Context(prec=DIGITS, rounding=rounding, Emin=-(10**6), Emax=10**6)
    parts = decimal.Decimal(value.numerator), decimal.Decimal(value.denominator)
    return f"{context.divide(*parts):.{DIGITS - 1}e}"


def mark_of(satellites: int, outliers: int) -> str:
    """What is to be said of so many satellites and this q."""
    if outliers > MOST_OUTLIERS:
        return f"over {MOST_OUTLIERS}"
    return "few" if satellites < outliers + 4 else ""


def answered(satellites: int, args: argparse.Namespace) -> tuple[int, tuple[str, ...]]:
    """q, its probability or the p borne and the one that isn't, and the mark, for so many satellites."""
    if args.p is None:
        borne, more = greatest_p(satellites, args.q, args.risk)
        return args.q, (decimal_of(borne, decimal.ROUND_FLOOR), decimal_of(more) if more else "none")
    outliers = args.q if args.q is not None else least_outliers(satellites, args.p, args.risk)
    return outliers, (decimal_of(chance_of_more(satellites, outliers, args.p)),)


def table_lines(counts: Counts, args: argparse.Namespace) -> Iterator[str]:
    """A table over the numbers of satellites; `counts` has how many epochs have each, or None."""
    names: tuple[str, ...] = ("probability",) if args.p is not None else ("p borne", "p not borne")
    yield f"{'epochs  ' if counts[0][1] is not None else ''}sats  q" + "".join(
        f"  {name:>11}" for name in names
    ) + "  mark"
    for satellites, count in counts:
        outliers, values = answered(satellites, args)
        head = "" if count is None else f"{count:6}  "
        line = f"{head}{satellites:4} {outliers:2}" + "".join(f"  {value:>11}" for value in values)
        yield f"{line}  {mark_of(satellites, outliers)}".rstrip()


def grid_lines(satellites: Iterable[int], p: Fraction) -> Iterator[str]:
    """The probabilities for several q, a line for each number of satellites."""
    yield "sats" + "".join(f"  {f'q = {outliers}':>11}" for outliers in SHOWN_OUTLIERS)
    for number in satellites:
        cells = (decimal_of(chance_of_more(number, q, p)) if number >= q + 4 else "few" for q in SHOWN_OUTLIERS)
        yield f"{number:4}" + "".join(f"  {cell:>11}" for cell in cells)


def single_lines(satellites: int, args: argparse.Namespace) -> Iterator[str]:
    """What is said of one number of satellites."""
    outliers, values = answered(satellites, args)
    mark = mark_of(satellites, outliers)
    if args.p is None:
        borne, more = values
        yield f"q = {outliers} of {satellites} bears " + (
            "any p" if more == "none" else f"p up to {borne}, and not {more}"
        )
    else:
        chance = chance_of_more(satellites, outliers, args.p)
        if args.q is None:
            yield f"least q of {satellites}: {outliers}"
        yield f"more than {outliers} of {satellites}: at most {values[0]}, exactly {chance}"
    if mark:
        yield f"{mark}: " + (
            f"an epoch is paved from {outliers + 4} satellites on" if mark == "few" else "the settings allow no such q"
        )


def epochs_by_satellites(path: PathLike) -> list[tuple[int, int]]:
    """How many epochs of a log have each number of usable satellites, in order of that number."""
    counts = Counter(epoch.satellites for epoch in epochs(path))
    if not counts:
        raise Error(f"{path} has no epochs")
    return sorted(counts.items())


def sum_line(counts: list[tuple[int, int]], args: argparse.Namespace) -> str:
    """The sum over the paved epochs, which bounds the probability that it happens in any of them."""
    chance, paved = Fraction(0), 0
    for satellites, count in counts:
        outliers, _ = answered(satellites, args)
        if not mark_of(satellites, outliers):
            chance, paved = (chance + count * chance_of_more(satellites, outliers, args.p), paved + count)
    return (
        f"in {paved} epochs without a mark: at most {decimal_of(min(chance, Fraction(1)))} that it"
        " happens in any of them (the sum, so whatever one epoch has to do with another)"
    )


def lines(args: argparse.Namespace) -> Iterator[str]:
    """All lines of the answer."""
    yield from ASSUMED
    if args.log:
        if args.q is None and (args.p is None or args.risk is None):
            args.q = rules_of(args.log).outliers
        counts = epochs_by_satellites(args.log)
        yield from table_lines([*counts], args)
        if args.p is not None:
            yield sum_line(counts, args)
    elif args.q is None and args.risk is None:
        yield from grid_lines(args.satellites, args.p)
    elif len(args.satellites) == 1:
        yield from single_lines(args.satellites[0], args)
    else:
        yield from table_lines([(number, None) for number in args.satellites], args)


def probability(word: str) -> Fraction:
    """A decimal or a fraction from 0 to 1."""
    try:
        if LONG_EXPONENT.search(word):
            raise ValueError
        value = Fraction(word)
    except (ValueError, ZeroDivisionError):
        raise argparse.ArgumentTypeError(f"{word} is no decimal as 1e-5 and no fraction as 1/1000") from None
    if not 0 <= value <= 1:
        raise argparse.ArgumentTypeError(f"{word} isn't from 0 to 1")
    return value


def required_risk(word: str) -> Fraction:
    """A probability above 0 and below 1."""
    value = probability(word)
    if value in (0, 1):
        raise argparse.ArgumentTypeError("a risk is above 0 and below 1")
    return value


def whole(word: str, least: int, most: int) -> int:
    """A whole number between two."""
    if not (word.isascii() and word.isdigit() and least <= int(word) <= most):
        raise argparse.ArgumentTypeError(f"{word} isn't a whole number from {least} to {most}")
    return int(word)


def outlier_count(word: str) -> int:
    """A q that the settings allow."""
    return whole(word, 0, MOST_OUTLIERS)


def satellite_counts(word: str) -> range:
    """N, or the numbers from N to M."""
    ends = [whole(part, 1, MOST_SATELLITES) for part in word.split("-", 1)]
    if ends[0] > ends[-1]:
        raise argparse.ArgumentTypeError(f"{word}: the first number is the greater one")
    return range(ends[0], ends[-1] + 1)


def arguments(parser: argparse.ArgumentParser) -> None:
    """The words of the command line."""
    parser.add_argument("--p", type=probability, help="the probability that a satellite's error breaks its bounds")
    parser.add_argument("--q", type=outlier_count, help="how many satellites may break their bounds")
    parser.add_argument("--risk", type=required_risk, help="the probability that is allowed in an epoch")
    numbers = parser.add_mutually_exclusive_group()
    numbers.add_argument("--satellites", type=satellite_counts, default=range(4, 17), metavar="N[-M]")
    numbers.add_argument("--log", metavar="LOG", help="take the numbers of satellites from a log")


def refuse(args: argparse.Namespace) -> None:
    """UsageError where the words don't go together."""
    given = [value is not None for value in (args.p, args.q, args.risk)]
    if all(given):
        raise UsageError("give two of --p, --q and --risk: the third is the answer")
    if sum(given) < 2 and args.p is None and not (args.log and args.risk is not None):
        raise UsageError("give two of --p, --q and --risk, or --p alone")


def run(args: argparse.Namespace) -> int:
    """Prints the answer. The status."""
    refuse(args)
    print(*lines(args), sep="\n")
    return 0


ABOUT = "how probable it is that more than q of n satellites break their bounds"
COMMAND = Command("risk", ABOUT, arguments, run, __doc__)
