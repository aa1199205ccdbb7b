"""Prints error bounds by elevation as the tables [bounds] and [satellite] of the settings.

usage: gpslog bounds LOG X Y Z single|dual [options]
       gpslog bounds LOG X Y Z single|dual --every SECONDS --settings SETTINGS --files OBS NAV
                     --folder FOLDER [options]
       gpslog bounds LOG X Y Z single|dual --station SETTINGS [--more FACTOR]

LOG is what `gpscover solve` writes of the files with `bisections = 0`: its lines have the
satellites' places. X Y Z is a rough place of the receiver in the earth-fixed frame in metres, good
to some 10 km. It lies in the search box of LOG; one outside is refused, since one of the two is
wrong then. Over all epochs of LOG each satellite gets the least and the greatest bound between the
elevations at which it is seen. A satellite that LOG lacks gets those between --mask and the zenith,
so that none is without a bound; Galileo satellites get bounds where LOG has rows of some. One that
is seen below --mask, where the mapping doesn't hold, is opened to 1 km, so that it limits nothing.

A bound in metres at the elevation E is the sum of
  troposphere  zenith delay times m(E) = 1.001 / sqrt(0.002001 + sin(E)^2), give or take a part of
               it for the mapping (Black and Eisner, 1984; the mapping of RTCA DO-229 above 4
               degrees)
  ionosphere   single mode: zenith delay on L1 times the obliquity of a thin shell at 350 km, as in
               RTCA DO-229; dual mode: what the combination leaves of it
  receiver     noise and multipath of a code; in dual mode 4.09 times that, since P = 2.546 P1 -
               1.546 P2 (for Galileo on E1 and E5a 3.53 times would do, on E1 and E5b 3.85); it
               grows from the elevation --rise down to --horizon times as much at the horizon
  orbit_clock  the error of the broadcast orbit and clock
The parts that don't depend on the elevation are printed in [bounds], the rest in [satellite]. With
--zenith the troposphere isn't mapped here: its delay at the zenith, with the part for the mapping,
is printed in [bounds] as `zenith`, and gpscover maps it by the elevation at each point of the
search box and at each epoch's time. With --vertical, in single mode, so is the ionosphere's, as
`vertical`. With both no satellite has a line, but those that are opened: what noise adds below
--rise is in `zenith` too, by the least amount that is enough at every elevation once it is mapped,
less the part for the mapping. Such settings serve any sky, and cost somewhat larger regions. Each
number is an option, and is the engineer's own declaration: the region holds the receiver only while
they hold.

With --settings all of SETTINGS are printed, with the new tables in place of their own, wherever these
stand. A satellite rises and sets, so one table for a long file declares much for each. With --every
there is one for each stretch of so many seconds: FOLDER gets part01.toml and so on, which are SETTINGS
with the tables of a stretch, and the lines are printed that solve the epochs of each part and check
them.

With --station, LOG is what `gpscover solve --station` writes by SETTINGS, which have the station's
place, and X Y Z is a known place of the receiver. What is printed is how large the differences of
both receivers were, less the median of each epoch, by elevation, and a table [bounds] that holds
for FACTOR times (1.5) each of them. A station that is over 20 km away, or over 200 m higher or
lower, is warned of. What was seen in an hour is no bound of another: declare more.

Exit status: 0; 1 where a file can't be read or written, or LOG isn't a whole log, has no
satellites, or has another search box; 2 for a wrong command line.
"""

from __future__ import annotations

import argparse
import math
import re
import shlex
from collections.abc import Iterable, Iterator
from dataclasses import dataclass, field, fields
from pathlib import Path

from gpscover import differences
from gpscover.command import Command, measure, read_text
from gpscover.errors import Error, UsageError
from gpscover.geodesy import Vector, elevation
from gpscover.integrity import in_um
from gpscover.log import UM_PER_M, Box, Epoch, PathLike, epochs

Pair = tuple[float, float]

EARTH_KM = 6371.0
OPENED_M = (-1000.0, 1000.0)
ZENITH_MM, VERTICAL_MM = (10_000, 100_000)  # the greatest amounts of delays straight up that the settings take
SHELL_KM = 350.0  # by which gpscover maps the ionosphere
CELLS = 20_000  # between elevations, of which each tells a greatest quotient: the least number but for some 0.1 mm
PS_PER_S = 10**12
DUAL_FACTOR = (77**2 + 60**2) / (77**2 - 60**2)  # the sum of the amounts of the combination's two coefficients


@dataclass(frozen=True)
class Parts:
    """What the bounds are made of. Each number is the engineer's own declaration."""

    mode: str  # single or dual
    troposphere: Pair = (1.95, 2.65)  # zenith delay in m
    ionosphere: Pair = (0.0, 6.0)  # zenith delay on L1 in m
    mapping: float = 0.02  # part of the mapped troposphere added at both ends
    shell: float = SHELL_KM  # height of the ionosphere's shell in km
    left: float = 0.3  # what the dual combination leaves of the ionosphere in m
    receiver: float = 3.0  # noise and multipath of each code high up in m
    rise: float = 30.0  # elevation below which the noise grows in degrees
    horizon: float = 2.0  # how many times as much it is at the horizon
    orbit: float = 3.0  # error of the broadcast orbit and clock in m
    mask: float = 4.0  # the least elevation in degrees at which the delays are mapped
    zenith: bool = False  # whether gpscover maps the troposphere itself
    vertical: bool = False  # the same of the ionosphere, in single mode

    @property
    def one_line(self) -> bool:
        """Whether noise alone is left to follow the elevation, so that the zenith's line carries it."""
        return self.zenith and self.vertical


def troposphere_mapping(angle: float) -> float:
    """How many times the zenith delay the troposphere delays a signal from an elevation in
    radians."""
    return 1.001 / math.sqrt(0.002001 + math.sin(angle) ** 2)


def ionosphere_mapping(angle: float, shell_km: float) -> float:
    """The same of the ionosphere as a thin shell at a height in km."""
    return 1 / math.sqrt(1 - (EARTH_KM * math.cos(angle) / (EARTH_KM + shell_km)) ** 2)


def extra_noise(angle: float, parts: Parts) -> float:
    """How much the receiver's bound in metres grows at an elevation, beyond what it is high up."""
    rise = math.radians(parts.rise)
    share = max(0.0, rise - angle) / rise if rise > 0 else 0.0
    return (parts.horizon - 1) * share * receiver_bound(parts)


def receiver_bound(parts: Parts) -> float:
    """The receiver's bound high up in metres, of the combination in dual mode."""
    return parts.receiver * (DUAL_FACTOR if parts.mode == "dual" else 1.0)


def troposphere(mapped: float, parts: Parts) -> Pair:
    """The (low, high) in metres of the troposphere's delay, mapped by this factor, which is 1 at
    the zenith."""
    low, high = parts.troposphere
    # Outward for either sign.
    return (
        low * mapped * (1 - math.copysign(parts.mapping, low)),
        high * mapped * (1 + math.copysign(parts.mapping, high)),
    )


def varying(angle: float, parts: Parts) -> Pair:
    """The (low, high) in metres of what depends on the elevation and is mapped here."""
    low, high = (0.0, 0.0) if parts.zenith else troposphere(troposphere_mapping(angle), parts)
    if parts.mode == "single" and not parts.vertical:
        oblique = ionosphere_mapping(angle, parts.shell)
        low, high = low + parts.ionosphere[0] * oblique, high + parts.ionosphere[1] * oblique
    noise = extra_noise(angle, parts)
    return low - noise, high + noise


def noise_at_zenith(parts: Parts) -> int:
    """The mm at the zenith that, mapped and less the part for the mapping, are nowhere less than what the noise grows by.

    From the horizon up both the noise and the mapping fall. So between two elevations the quotient is at most that of the
    noise at the lower one by the mapping at the higher one.
    """
    top = math.radians(min(max(parts.rise, 0.0), 90.0))
    angles = [top * k / CELLS for k in range(CELLS + 1)]
    cells = zip(angles, angles[1:])
    most = max(extra_noise(low, parts) / troposphere_mapping(high) for low, high in cells)
    return max(0, math.ceil(1000 * most / (1 - parts.mapping)))


def bound_between(lowest: float, highest: float, parts: Parts) -> Pair:
    """The least and the greatest bound in metres between two elevations in radians, taken at steps
    of 0.1 degrees."""
    count = max(1, math.ceil((highest - lowest) / math.radians(0.1)))
    angles = [lowest + (highest - lowest) * k / count for k in range(count + 1)]
    lows, highs = zip(*(varying(angle, parts) for angle in angles))
    return min(lows), max(highs)


def refuse_stranger(root: Box, place: Vector) -> None:
    """Error where a rough place in m isn't in a search box in um."""

    def beyond(point: Iterable[float]) -> float:
        ends = zip(root.low, in_um(list(point)), root.high)
        return math.hypot(*(max(low - end, end - high, 0) for low, end, high in ends)) / UM_PER_M

    if beyond(place) == 0:
        return
    if beyond([value / 1000 for value in place]) == 0:
        raise Error("the rough place is in millimetres: give it in metres")
    middle = " ".join(f"{(low + high) / 2 / UM_PER_M:.0f}" for low, high in zip(root, root[3:]))
    raise Error(
        f"the rough place is {beyond(place) / 1000:.3f} km outside the search box of the log, whose"
        f" middle is {middle} m: one of the two is wrong, or the box is too small (is the position"
        " in the header right?)"
    )


@dataclass
class Stretch:
    """Epochs of a log, one behind the other."""

    number: int  # of the stretch by its time
    first: int  # the epochs' numbers
    last: int
    seen: dict[str, Pair] = field(default_factory=dict)  # each satellite's least and greatest elevation in radians

    def add(self, epoch: Epoch, place: Vector) -> None:
        """Adds an epoch, with a rough place of the receiver."""
        self.last = epoch.index
        if epoch.search is not None:
            refuse_stranger(epoch.search, place)
        for row in epoch.rows:
            middle = [(low + high) / 2 / UM_PER_M for low, high in row.place]
            angle = elevation(place, middle)
            low, high = self.seen.get(row.satellite, (angle, angle))
            self.seen[row.satellite] = min(low, angle), max(high, angle)


def stretches(path: PathLike, place: Vector, seconds: float | None) -> list[Stretch]:
    """The stretches of a log, each of so many seconds from the first epoch on; one where `seconds`
    is None."""
    found: list[Stretch] = []
    start: int | None = None
    for epoch in epochs(path):
        start = epoch.ps if start is None else start
        number = 0 if seconds is None else int((epoch.ps - start) // (seconds * PS_PER_S))
        if not found or found[-1].number != number:
            found.append(Stretch(number, epoch.index, epoch.index))
        found[-1].add(epoch, place)
    if not any(stretch.seen for stretch in found):
        raise Error(f"{path} has no satellites: every epoch is few")
    return found


def whole_millimetres(bound: Pair) -> list[int]:
    """A bound in metres in mm, rounded outward."""
    return [math.floor(bound[0] * 1000), math.ceil(bound[1] * 1000)]


def most_millimetres(bound: Pair) -> int:
    """The greatest amount in mm of a bound in metres."""
    return max(abs(end) for end in whole_millimetres(bound))


def millimetres(bound: Pair) -> str:
    """A bound in metres as `[low, high]` in mm, rounded outward."""
    return str(whole_millimetres(bound))


def common_lines(parts: Parts) -> Iterator[str]:
    """The table [bounds]: what is the same at every elevation."""
    receiver, left = receiver_bound(parts), (0.0, 0.0)
    if parts.mode == "dual":
        left = (-parts.left, parts.left)
    combined = f", {DUAL_FACTOR:.2f} times that in the combination" if parts.mode == "dual" else ""
    yield "[bounds]"
    yield f"# Noise and multipath high up: {parts.receiver:g} m on each code{combined}."
    yield f"receiver = {millimetres((-receiver, receiver))}"
    yield f"# The broadcast orbit and clock: {parts.orbit:g} m."
    yield f"orbit_clock = {millimetres((-parts.orbit, parts.orbit))}"
    if parts.mode == "dual":
        yield "# What the combination leaves of the ionosphere."
    else:
        yield f"# {'Mapped by elevation.' if parts.vertical else 'By elevation below.'}"
    yield f"ionosphere = {millimetres(left)}"
    yield from troposphere_lines(parts)
    if parts.vertical:
        yield "# Mapped by elevation: {:g} to {:g} m at the vertical, on L1.".format(*parts.ionosphere)
        yield f"vertical = {millimetres(parts.ionosphere)}"


def zenith_ends(parts: Parts) -> list[int]:
    """The bound in mm of the delay at the zenith, with the noise that it carries."""
    carried = noise_at_zenith(parts) if parts.one_line else 0
    low, high = whole_millimetres(troposphere(1.0, parts))
    return [low - carried, high + carried]


def troposphere_lines(parts: Parts) -> Iterator[str]:
    """The lines of the troposphere in [bounds]."""
    if not parts.zenith:
        yield from ("# By elevation below.", "troposphere = [0, 0]")
        return
    low, high = parts.troposphere
    ends = zenith_ends(parts)
    yield f"# Mapped by elevation: {low:g} to {high:g} m at the zenith, {parts.mapping:.0%} for the mapping."
    if parts.one_line:
        yield f"# {ends[1] - whole_millimetres(troposphere(1.0, parts))[1]} mm at both ends are for {noise_reason(parts)}."
        yield f"# Mapped, and less {parts.mapping:.0%}, they are enough at every elevation, so that no satellite needs a line of its own but"
        yield f"# one seen below {parts.mask:g} degrees, where the mapping doesn't hold: [-1000000, 1000000] in [satellite]."
    yield "troposphere = [0, 0]"
    yield f"zenith = {ends}"


def noise_reason(parts: Parts) -> str:
    """What the noise does by elevation, in words."""
    return f"noise that grows below {parts.rise:g} degrees, to {parts.horizon:g} times as much at the horizon"


def reason_lines(parts: Parts) -> Iterator[str]:
    """What the bounds of the satellites are made of."""
    reasons = []
    if not parts.zenith:
        low, high = parts.troposphere
        reasons.append(f"zenith troposphere {low:g} to {high:g} m, mapped, {parts.mapping:.0%} for the mapping")
    if parts.mode == "single" and not parts.vertical:
        low, high = parts.ionosphere
        reasons.append(f"zenith ionosphere {low:g} to {high:g} m on L1, by a thin shell at {parts.shell:g} km")
    reasons.append(noise_reason(parts))
    first, *more = (";\n".join(reasons) + ".").split("\n")
    yield f"# Added to the bounds above: {first}"
    yield from (f"# {line}" for line in more)


def satellite_names(seen: Iterable[str]) -> list[str]:
    """The satellites of GPS, and where some of Galileo are seen also those."""
    counts = {"G": 32} | ({"E": 36} if any(name[0] == "E" for name in seen) else {})
    return [f"{letter}{number:02}" for letter, count in counts.items() for number in range(1, count + 1)]


def satellite_line(name: str, ends: Pair | None, parts: Parts) -> str:
    """The line of a satellite by the elevations between which it is seen, if it is."""
    lowest = math.radians(parts.mask)
    low, high = ends or (lowest, math.pi / 2)
    where = f"{math.degrees(low):.1f} to {math.degrees(high):.1f} degrees"
    if not ends:
        where += ", not in the log"
    if low < lowest:
        return f"{name} = {millimetres(OPENED_M)}  # {where}, below the mask: opened"
    return f"{name} = {millimetres(bound_between(low, high, parts))}  # {where}"


def satellite_lines(seen: dict[str, Pair], parts: Parts) -> Iterator[str]:
    """The table [satellite]: every satellite, with the elevations that its bound holds for; where the zenith's line carries
    the noise, those alone that are opened."""
    if not parts.one_line:
        yield "[satellite]"
        yield from reason_lines(parts)
        yield from (satellite_line(name, seen.get(name), parts) for name in satellite_names(seen))
        return
    opened = {name: ends for name, ends in sorted(seen.items()) if ends[0] < math.radians(parts.mask)}
    if opened:
        yield "[satellite]"
        yield from (satellite_line(name, ends, parts) for name, ends in opened.items())


def tables(seen: dict[str, Pair], parts: Parts) -> list[str]:
    """Both tables, line by line."""
    own = list(satellite_lines(seen, parts))
    return [*common_lines(parts), *([""] if own else []), *own]


def without_bounds(path: PathLike, mode: str) -> str:
    """The settings without the tables [bounds] and [satellite], wherever these stand.

    Error where there is no [bounds], or they are of another mode.
    """
    text = read_text(path)
    if not re.search(r"(?m)^[ \t]*\[bounds\]", text):
        raise Error(f"{path} has no table [bounds]")
    if not re.search(rf'(?m)^[ \t]*mode[ \t]*=[ \t]*["\']{mode}["\']', text):
        raise Error(f"{path} isn't of the mode {mode}")
    left = re.sub(r"(?ms)^[ \t]*\[(bounds|satellite)\].*?(?=^[ \t]*\[|\Z)", "", text)
    return left if left.endswith("\n") else f"{left}\n"


def write_parts(found: list[Stretch], parts: Parts, args: argparse.Namespace) -> Iterator[str]:
    """Writes the settings of each stretch, and gives the lines that solve and check it."""
    folder, head = Path(args.folder), without_bounds(args.settings, args.mode)
    folder.mkdir(parents=True, exist_ok=True)
    digits = max(2, len(str(len(found))))
    for count, stretch in enumerate(found, 1):
        toml, log = (folder / f"part{count:0{digits}}.{ending}" for ending in ("toml", "log"))
        toml.write_text(head + "\n".join(tables(stretch.seen, parts)) + "\n", encoding="utf-8", newline="\n")
        words = shlex.join([*args.files, str(toml), str(log), "--from", str(stretch.first), "--to", str(stretch.last)])
        yield f"{shlex.quote(args.program)} solve {words} > /dev/null"
        yield f"{shlex.quote(args.program)} check {words}"


def arguments(parser: argparse.ArgumentParser) -> None:
    """The words of the command line."""
    parser.add_argument("log", metavar="LOG", help="a log that was solved with bisections = 0")
    for axis in "XYZ":
        parser.add_argument(axis.lower(), metavar=axis, type=measure, help="a rough place, m")
    parser.add_argument("mode", choices=("single", "dual"))
    for name, more in (
        ("troposphere", "zenith delay, m (1.95 2.65: 0 to 1,000 m above sea)"),
        ("ionosphere", "zenith delay on L1, m (0 6)"),
    ):
        parser.add_argument(
            f"--{name}", nargs=2, type=measure, default=getattr(Parts, name), metavar=("LOW", "HIGH"), help=more
        )
    for name, meaning in (
        ("mapping", "part of the mapped troposphere added at both ends"),
        ("shell", "height of the ionosphere's shell, km"),
        ("left", "what the dual combination leaves of the ionosphere, m"),
        ("receiver", "noise and multipath of each code high up, m"),
        ("rise", "elevation below which the noise grows, degrees"),
        ("horizon", "how many times as much it is at the horizon"),
        ("orbit", "error of the broadcast orbit and clock, m"),
        ("mask", "the least elevation at which the delays are mapped, degrees"),
    ):
        default = getattr(Parts, name)
        parser.add_argument(f"--{name}", type=measure, default=default, help=f"{meaning} ({default:g})", metavar="N")
    parser.add_argument(
        "--zenith",
        action="store_true",
        help="print the troposphere's delay at the zenith, which gpscover maps by elevation itself",
    )
    parser.add_argument(
        "--vertical",
        action="store_true",
        help=("in single mode: print the ionosphere's delay at the vertical, which gpscover maps" " itself"),
    )
    parser.add_argument("--every", type=measure, metavar="SECONDS", help="a table for each stretch of so many seconds")
    parser.add_argument("--settings", metavar="SETTINGS", help="print all of these settings, with the new tables")
    parser.add_argument("--files", nargs=2, metavar=("OBS", "NAV"), help="with --every: the files that are solved")
    parser.add_argument("--folder", help="with --every: where the settings and logs of the parts stand")
    parser.add_argument("--program", default="./gpscover", help="with --every: the program (./gpscover)")
    parser.add_argument("--station", metavar="SETTINGS", help="bounds of differences: the settings of LOG")
    parser.add_argument("--more", type=measure, default=1.5, metavar="FACTOR", help="with --station (1.5)")


def parts_of(args: argparse.Namespace) -> Parts:
    """What the words declare. UsageError where they don't go together."""
    parts = Parts(**{field.name: getattr(args, field.name) for field in fields(Parts)})
    together = [args.every, args.files, args.folder]
    if any(part is None for part in together) and together != [None] * 3 or args.every and not args.settings:
        raise UsageError("--every, --settings, --files and --folder go together")
    if args.every is not None and not args.every >= 0.001:
        raise UsageError("a stretch has at least 0.001 seconds")
    if parts.shell < 1:
        raise UsageError("the ionosphere's shell is at least 1 km high")
    if parts.vertical and (parts.mode == "dual" or parts.shell != SHELL_KM):
        raise UsageError(f"--vertical is for single mode and a shell at {SHELL_KM:g} km")
    if parts.one_line and not 0 <= parts.mapping < 1:
        raise UsageError("with --zenith and --vertical the part for the mapping is 0 to 1, and less than 1")
    if parts.zenith and max(abs(end) for end in zenith_ends(parts)) > ZENITH_MM:
        noise = ", with the noise that it carries," if parts.one_line else ""
        raise UsageError(f"with --zenith the troposphere's delay at the zenith is{noise} within {ZENITH_MM / 1000:g} m")
    if parts.vertical and most_millimetres(parts.ionosphere) > VERTICAL_MM:
        raise UsageError(
            "with --vertical the ionosphere's delay at the vertical is within" f" {VERTICAL_MM / 1000:g} m"
        )
    return parts


def run(args: argparse.Namespace) -> int:
    """Prints the tables, or writes those of each stretch. The status."""
    parts, place = parts_of(args), (args.x, args.y, args.z)
    if args.station is not None:
        print(*differences.tables(args.log, place, args.station, args.more), sep="\n")
        return 0
    found = stretches(args.log, place, args.every)
    if args.every is not None:
        print(*write_parts(found, parts, args), sep="\n")
        return 0
    print(end=without_bounds(args.settings, args.mode) if args.settings else "")
    print(*tables(found[0].seen, parts), sep="\n")
    return 0


ABOUT = "error bounds by elevation, as tables of the settings"
COMMAND = Command("bounds", ABOUT, arguments, run, __doc__)
