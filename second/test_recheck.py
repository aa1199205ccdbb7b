"""Tests of the second checker, on the logs of the repository and on logs that are written here.

The verdicts are those of `gpscover check` and `gpscover judge`, or found by hand from docs/LOG.md; so are the numbers of
the mapping, from docs/EQUATIONS.md. The proved program is asked the same by `check`, `retrack` and `judge`.
"""
import ast
import importlib.util
import re
import shutil
import subprocess
import sys
import tempfile
from itertools import product
from pathlib import Path

import pytest

TOP = Path(__file__).resolve().parent.parent
# Loaded by its path, for the values that its command line doesn't print: nothing imports it, so that it stands alone.
SPEC = importlib.util.spec_from_file_location("recheck", TOP / "second/recheck.py")
recheck = sys.modules[SPEC.name] = importlib.util.module_from_spec(SPEC)
SPEC.loader.exec_module(recheck)
DATA = TOP / "crates/gpscover/data"
FILES = [DATA / name for name in ("receiver.obs", "receiver.nav", "settings.toml")]
LOG = DATA / "receiver.log"
WRONG_WORDS = 2, ("usage: recheck.py [--track] OBS NAV SETTINGS LOG [--from N] [--to N] [--station STATION] [--after EARLIER],"
                  " or recheck.py LOG\n")


def verdict(*words):
    """The status and the line of the second checker on these words."""
    return answer(sys.executable, TOP / "second/recheck.py", *words)


def program_verdict(program, words):
    """Those of the proved program."""
    if words[0] == "--track":
        return answer(program, "retrack", *words[1:])
    return answer(program, "judge" if len(words) == 1 else "check", *words)


def answer(*words):
    """The status and the line of a command."""
    ran = subprocess.run(words, capture_output=True, text=True)
    return ran.returncode, ran.stdout + ran.stderr


def written(folder, name, text):
    """A file with a text."""
    path = Path(folder) / name
    path.write_text(text)
    return path


def verdict_cases(folder):
    """(words, status and line) of logs, each with one of its own."""
    changed = written(folder, "changed.log", LOG.read_text().replace("split 0 ", "split 1 ", 1))
    page = (TOP / "docs/LOG.md").read_text()
    worked = re.search(r"```\n(gpscover 1\nrules [0-9].*?)```", page, re.DOTALL).group(1)
    return (
        ((*FILES, LOG), (0, "yes 48\n")),
        ((LOG,), (0, "yes 48\n")),
        ((TOP / "examples/recorded-epoch.log",), (0, "yes 12\n")),
        ((TOP / "examples/one-edge-box.log",), (0, "yes 1\n")),
        ((TOP / "examples/renewed-rows.log",), (0, "yes 1\n")),
        ((written(folder, "worked.log", worked),), (0, "yes 2\n")),
        ((changed,), (1, "no 56 NotLive line 14\n")),
    )


def selection_cases(folder):
    """(words, status and line) of checks of a part of the four epochs."""
    head, *epochs = re.split(r"(?m)^(?=epoch)", LOG.read_text())
    boxes = [len(re.findall(r"(?m)^(?:in|edge) ", epoch)) for epoch in epochs]
    middle = [*FILES, written(folder, "middle.log", head + "".join(epochs[1:3]))]
    none = [*FILES, written(folder, "none.log", head)]
    yes = 0, f"yes {boxes[1] + boxes[2]}\n"
    behind = epochs[1].count("\n") + epochs[2].count("\n") + 3
    return (
        ((*middle, "--from", "2", "--to", "3"), yes),
        ((*middle, "--to", "3", "--from", "2"), yes),
        ((*middle, "--from", "2"), (1, f"no 51 EpochDiffers line {behind}\n")),
        ((*middle, "--to", "3"), (1, "no 51 EpochDiffers line 3\n")),
        ((*middle, "--from", "3", "--to", "3"), (1, "no 51 EpochDiffers line 3\n")),
        ((*FILES, LOG, "--from", "1", "--to", "200000"), (0, "yes 48\n")),
        ((*none, "--from", "3", "--to", "2"), (0, "yes 0\n")),
        ((*none, "--from", "5"), (0, "yes 0\n")),
        ((*none, "--from", "4"), (1, "no 51 EpochDiffers line 3\n")),
    )


def bound_cases(folder):
    """(words, status and line) of the bound that docs/LOG.md works out: 1 less isn't shown, nor with a row that may fail."""
    page = (TOP / "docs/LOG.md").read_text()
    bound, by = re.search(r"```\n(bound [-0-9].*)\n(by [0-9].*)\n```", page).groups()
    lines = ["gpscover 4", *(TOP / "examples/one-edge-box.log").read_text().splitlines()[1:]]
    fifth = "sat G05 0 0 0 0 -20000000000000 -20000000000000 20000000000000 20000000000000 -500000 500000"
    more = [lines[0], "rules 1 0 1000000", lines[2][:-1] + "5", *lines[3:7], fifth, *lines[7:]]
    for number, (log, wanted) in enumerate((
            ([*lines, bound, by], (0, "yes 1\n")),
            ([*lines, bound.replace("1000003", "1000002"), by], (1, "no 66 BoundNotShown line 11\n")),
            ([*more, bound, by], (1, "no 66 BoundNotShown line 12\n")))):
        yield (written(folder, f"bound{number}.log", "\n".join([*log, ""])),), wanted


def two_bound_cases(folder):
    """(words, status and line) of the two bounds that docs/LOG.md works out: the second stands on the first."""
    page = (TOP / "docs/LOG.md").read_text()
    face, by, corner, none = re.search(r"```\n(bound .*)\n(by .*)\n(bound .*)\n(by .*)\n```", page).groups()
    lines = (TOP / "examples/renewed-rows.log").read_text().splitlines()
    lines = ["gpscover 4", *lines[1:15], "edge 0 -11000000 11000000", lines[18]]
    first, second = (1, "no 66 BoundNotShown line 18\n"), (1, "no 66 BoundNotShown line 20\n")
    for number, (bounds, wanted) in enumerate((
            ([face, by, corner, none], (0, "yes 1\n")), ([corner, none], first), ([corner, none, face, by], first),
            ([face.replace("1000004", "1000003"), by, corner, none], first),
            ([face, by, corner.replace("2000004", "2000003"), none], second),
            ([face.replace("1000004", "6250001"), by, corner, none], second),
            ([face.replace("1 0 0 1000004", "2 0 0 2000008"), by.replace("8388608", "4194304"), corner, none],
             second))):
        yield (written(folder, f"two_bounds{number}.log", "\n".join([*lines, *bounds, ""])),), wanted


def bound_values():
    """(what, found, wanted) of sums of rows: which are left whichever rows are left out, and what they show."""
    by = [[1, *(number for place in places for number in (place, 0))]
          for places in ([0, 1, 2, 2, 2], [2, 3, 3, 3, 3], [4] * 5)]
    for sums, left_out, wanted in ((by, 0, True), (by, 1, True), (by, 2, False), (by, 8, False), (by[:2], 1, False),
                                   (by[1:], 1, True), (by[:1], 0, True), (by[:1], 1, False), (by[:1], 8, False)):
        yield f"{len(sums)} sums without {left_out}", recheck.sums_left(sums, left_out), wanted
    # Twice x is at most 10 by these two, and the box reaches from -100 to 100.
    scale, box, two = recheck.S, [-100] * 3 + [100] * 3, [0, 1, 1, -1, 0, 0, 0, 0, 0, 0]
    forms = [([scale, 0, 0], 10 * scale, -10 * scale), ([-scale, 0, 0], 10 * scale, 0)]
    for aim, most, wanted in (2 * scale, 5, True), (2 * scale, 4, False), (2 * scale + 1, 5, True), (0, 5, False):
        yield f"aim {aim}", recheck.sum_shows(forms, box, [1, 0, 0, most, 1], [aim, *two]), wanted
    for upper, wanted in (10**30, True), (10**30 + 1, False):
        far = [*forms, ([0, 0, 0], upper, 0), ([0, 0, 0], 0, -upper)]
        for place in 2, 3:
            found = recheck.sum_shows(far, box, [1, 0, 0, 5, 1], [2 * scale, *two[:-2], place, 0])
            yield f"an end of {upper} at place {place}", found, wanted


def left_values():
    """(what, found, wanted) of what a bound leaves of the box over which it is shown."""
    box = [-5, 10, -30, 7, 20, -10]
    for direction, most, wanted in (
            ([1, 0, 0], 3, [-5, 10, -30, 3, 20, -10]), ([1, 0, 0], -5, [-5, 10, -30, -5, 20, -10]),
            ([-1, 0, 0], 5, box), ([-1, 0, 0], -7, [7, 10, -30, 7, 20, -10]), ([-1, 0, 0], -8, box), ([1, 0, 0], 8, box),
            ([0, 1, 0], 10, [-5, 10, -30, 7, 10, -10]), ([0, 1, 0], 9, box), ([0, -1, 0], -12, [-5, 12, -30, 7, 20, -10]),
            ([0, 0, 1], -11, [-5, 10, -30, 7, 20, -11]), ([0, 0, -1], 11, [-5, 10, -11, 7, 20, -10]),
            ([0, 0, 1], -9, box), ([2, 0, 0], 6, box), ([0, 0, -2], 22, box), ([1, 1, 0], 12, box), ([0, 0, 0], 0, box)):
        yield f"{direction} at {most}", recheck.left_by_bound(box, direction, most), wanted


def wrong_word_cases():
    """(words, status and line) of wrong command lines."""
    options = [("--from", number) for number in ("0", "02", "+2", "-2", "2.0", "200001", "x", "")]
    options += [("--from",), ("--from", "1", "--from", "2"), ("--till", "3"), ("--to", "3", "x"), ("--track",)]
    options += [("--station",), ("--station", "-x"), ("--station", "x", "--station", "x"), ("--after", "x")]
    return [((*FILES, LOG, *option), WRONG_WORDS) for option in options] + [(words, WRONG_WORDS) for words in (
        ("--from", "2", *FILES, LOG), (LOG, "--from", "2"), (), ("--track",), ("--track", LOG),
        ("--track", "--track", *FILES, LOG))]


# A satellite on the x axis at the time that the code was sent, 20,661.9 km above the place of the settings; of a
# second one the code is missing.
OBS = """\
     3.05           OBSERVATION DATA    G                   RINEX VERSION / TYPE
G    1 C1C                                                  SYS / # / OBS TYPES
  2024     1     7     0     0    0.0700000     GPS         TIME OF FIRST OBS
                                                            END OF HEADER
> 2024 01 07 00 00  0.0700000  0  2
G01  20985472.060
G02
"""
NAV = """\
     3.05           N: GNSS NAV DATA    G                   RINEX VERSION / TYPE
                                                            END OF HEADER
G01 2024 01 07 00 00 00 0.000000000000D+00 0.000000000000D+00 0.000000000000D+00
     0.000000000000D+00 0.000000000000D+00 0.000000000000D+00 0.000000000000D+00
     0.000000000000D+00 0.000000000000D+00 0.000000000000D+00 5.200000000000D+03
""" + 5 * ("    " + 4 * " 0.000000000000D+00" + "\n")
SETTINGS = """\
[search]
centre = [6378137000, 0, 0]
half = 1
outliers = 1
bisections = 4096
width = 1000
max_age = 7200
[signal]
mode = "single"
codes = ["C1C"]
[bounds]
receiver = [0, 0]
orbit_clock = [0, 0]
ionosphere = [0, 0]
troposphere = [0, 0]
zenith = [2000, 2500]
[satellite]
G01 = [-7, 9]
"""


CENTRE, ZENITH, YES_0 = "[6378137000, 0, 0]", "zenith = [2000, 2500]", (0, "yes 0\n")


def zenith_paths(folder, settings=SETTINGS, name="zenith"):
    """The three files of the satellite at the zenith."""
    return [written(folder, f"{name}.{end}", text) for end, text in (("obs", OBS), ("nav", NAV), ("toml", settings))]


def zenith_cases(folder):
    """(words, status and line) of settings with `zenith`, and of a satellite that is skipped for the search box."""
    few = "gpscover 1\nrules 1 4096 1000000\nfew 1 1388620800070000000000 "
    used = written(folder, "used.log", few + "1\nskip G02 1\n")
    low = written(folder, "low.log", few + "0\nskip G01 7\nskip G02 1\n")
    differs = 1, "no 52 SatelliteDiffers line 3\n"
    outside, kind = "33 Outside bounds.zenith", "32 WrongKind bounds.zenith"
    for number, (changes, log, wanted) in enumerate((
            ({}, used, YES_0), ({}, low, differs),
            ({CENTRE: "[0, 0, 0]"}, low, YES_0), ({CENTRE: "[0, 0, 0]"}, used, differs),
            ({CENTRE: "[0, 0, 0]", ZENITH: ""}, used, YES_0),
            # The nearest point of the box is 6,000 km away, and then a mm less; then with the sides 3, 4 and 5.
            ({CENTRE: "[6000000001, 0, 0]"}, used, YES_0), ({CENTRE: "[6000000000, 0, 0]"}, low, YES_0),
            ({CENTRE: "[0, 3600000001, -4800000001]"}, used, YES_0),
            ({CENTRE: "[0, 3600000000, -4800000001]"}, low, YES_0),
            ({ZENITH: ""}, used, YES_0),
            ({ZENITH: "zenith = [10000, 10000]"}, used, YES_0), ({ZENITH: "zenith = [-10000, -10000]"}, used, YES_0),
            ({ZENITH: "zenith = [2500, 2000]"}, used, outside), ({ZENITH: "zenith = [2000, 10001]"}, used, outside),
            ({ZENITH: "zenith = [-10001, 0]"}, used, outside), ({ZENITH: "zenith = [2000]"}, used, outside),
            ({ZENITH: "zenith = 2000"}, used, kind), ({ZENITH: "zenith = [2000, 2500.0]"}, used, kind),
            ({ZENITH: "Zenith = [2000, 2500]"}, used, "34 Unknown bounds.Zenith"),
            ({ZENITH: "zenith = 1", "troposphere = [0, 0]\n": ""}, used, "31 Missing bounds.troposphere"),
            ({ZENITH: "zenith = 1", "G01 = [-7, 9]": "G01 = 1"}, used, kind),
            # The delay at the vertical, behind that at the zenith and in its place.
            ({ZENITH: ZENITH + "\nvertical = [0, 35000]"}, used, YES_0),
            ({ZENITH: "vertical = [-100000, 100000]"}, used, YES_0),
            ({ZENITH: "vertical = [0, 35000]", CENTRE: "[0, 0, 0]"}, low, YES_0),
            ({ZENITH: "vertical = [0, 35000]", CENTRE: "[0, 0, 0]"}, used, differs),
            ({ZENITH: "vertical = [0, 100001]"}, used, "33 Outside bounds.vertical"),
            ({ZENITH: "vertical = [-100001, 0]"}, used, "33 Outside bounds.vertical"),
            ({ZENITH: "vertical = 35000"}, used, "32 WrongKind bounds.vertical"),
            ({ZENITH: "vertical = 1\nzenith = 1"}, used, kind),
            ({ZENITH: "vertical = 1", "G01 = [-7, 9]": "G01 = 1"}, used, "32 WrongKind bounds.vertical"),
            ({"G01 = [-7, 9]": "G01 = [-1000000, 1000000]"}, used, YES_0))):
        settings = SETTINGS
        for old, new in changes.items():
            assert old in settings
            settings = settings.replace(old, new)
        if isinstance(wanted, str):
            wanted = 3, f"settings {wanted}\n"
        yield (*zenith_paths(folder, settings, f"zenith{number}"), log), wanted


NARROW, DIFFERS = "no 53 RowNarrow line 4 theirs ", "no 54 BoundDiffers line 4"


def mapped_log(change):
    """The log of the recorded receiver with wider bounds, in which 1.8 to 3 m at the zenith lie, mapped: the factor
    is from 1 to 22.4. The root isn't paved. `change` is done to ELO, EHI, SLO and SHI of each row."""
    lines, steps = [], ("edge 0 -200000000000000 200000000000000", "done 0")
    for line in LOG.read_text().splitlines():
        word, *fields = line.split(" ")
        if word == "sat":
            low, high = map(int, fields[9:])
            bounds = low + 1_700_000, high + 68_000_000, low + 41_000_000, high + 2_900_000
            line = " ".join([word, *fields[:9], *map(str, change(bounds))])
        if word in ("gpscover", "rules", "epoch", "sat", "skip", "root"):
            lines.append(line)
        if word == "root":
            lines += steps
    return "".join(line + "\n" for line in lines)


def mapped_paths(folder, zenith="[1800, 3000]", half=200_000):
    """The files of the recorded receiver with the troposphere mapped by elevation, and half of each side in mm."""
    settings = re.sub(r"(?m)^(troposphere = .*)$", rf"\1\nzenith = {zenith}", FILES[2].read_text())
    settings = re.sub(r"(?m)^half = .*$", f"half = {half}", settings)
    return [*FILES[:2], written(folder, f"mapped{half}.toml", settings)]


def mapped_cases(folder):
    """(words, status and line) of logs with spans of the bounds: tests 53 and 54. The first row is line 4, and the
    bounds that are declared of it are -4 m and 51 m."""
    paths = mapped_paths(folder)
    for number, (change, files, wanted) in enumerate((
            (lambda it: it, paths, "yes 4"),
            # lo is at least 1.8 m above -4 m, and hi at least 3 m above 51 m; both are within the spans of the log.
            (lambda it: (it[0], it[1], -2_300_000, it[3]), paths, NARROW + "-2300000 -2300000 ours"),
            (lambda it: (it[0], it[1], it[0] + 1, it[3]), paths, NARROW + "-2300000 -2299999 ours"),
            (lambda it: (it[0], it[3] + 50_000, it[2], it[3]), paths, NARROW + "53900000 53950000 ours"),
            (lambda it: (36_500_000, it[1], 37_000_000, it[3]), paths, NARROW + "36500000 37000000 ours"),
            (lambda it: (it[0], it[1], it[2], it[1] - 1), paths, NARROW + "118999999 119000000 ours"),
            # Both spans are too narrow: that of lo is told.
            (lambda it: (it[0], it[1], it[0] + 1, it[1] - 1), paths, NARROW + "-2300000 -2299999 ours"),
            (lambda it: (-4_000_000, 51_000_000), paths, NARROW + "-4000000 -4000000 ours"),
            # Without `zenith`: more than the declared bounds, or less of one of them.
            (lambda it: it, FILES, DIFFERS),
            (lambda it: (-4_000_000, 51_000_000, -3_999_999, 51_000_000), FILES, DIFFERS),
            (lambda it: (-4_000_000, 51_000_000, -4_000_000, 50_999_999), FILES, DIFFERS),
            (lambda it: (-4_000_000, 51_000_001, -4_000_000, 51_000_000), FILES, DIFFERS),
            (lambda it: (-4_000_001, 51_000_000, -4_000_000, 51_000_000), FILES, DIFFERS))):
        log = written(folder, f"mapped{number}.log", mapped_log(change))
        yield (*files, log), (0 if wanted.startswith("yes") else 1, wanted)


# A place and a point in um, and the sine of the elevation as a fraction: 0 at the horizon of a point on the x axis; 1
# at its zenith; 3/5 and -4/5 of triangles with the sides 3, 4 and 5; 4/5 at a point on the z axis; 1 and 0.36 at a
# point whose up direction is (0.6, 0, 0.8), as its z is less than 6.4 * 10^12 um by the factor 1.00673949674228.
LOW_Z = 6_357_155_968_063  # 64 * 10^25 / 100673949674228, rounded
SINES = (
    ((6378137000000, 20000000000000, 0), (6378137000000, 0, 0), 0, 1),
    ((26378137000000, 0, 0), (6378137000000, 0, 0), 1, 1),
    ((18378137000000, 16000000000000, 0), (6378137000000, 0, 0), 3, 5),
    ((-9621863000000, 0, -12000000000000), (6378137000000, 0, 0), -4, 5),
    ((12000000000000, 0, -22400000000000), (0, 0, -6400000000000), 4, 5),
    ((16800000000000, 0, LOW_Z + 16 * 10**12), (4800000000000, 0, LOW_Z), 1, 1),
    ((16800000000000, 16 * 10**12, LOW_Z), (4800000000000, 0, LOW_Z), 9, 25),
)
# Factors of sines, to the digits that are shown: 1.001 / sqrt(0.002001 + s^2).
FACTORS = (
    (0, "22.377"),  # sqrt(0.002001) = 0.044732538
    (10**16, "1.000"),  # sqrt(1.002001) = 1.001
    (-10**16, "1.000"),
    (6 * 10**15, "1.6637"),  # sqrt(0.362001) = 0.6016652
    (5 * 10**15, "1.99404"),  # sqrt(0.252001) = 0.5019970
)


# 1 / sqrt(1 - (Re cos E / (Re + h))^2), by hand: overhead; at the horizon, (Re + h) / sqrt(h (2 Re + h)) =
# 6728.1363 / 2141.7743; and where the sine is 3/5, 6728.1363 / sqrt(6728.1363^2 - 0.64 * 6378.1363^2) = 6728.1363 / 4385.4555.
SHELL_FACTORS = ((10**16, "1.0000"), (0, "3.1414"), (-6 * 10**15, "1.5342"))


def value_cases(folder):
    """(what, found, wanted) of values of the second checker's own."""
    scale = recheck.ONE // 10**6
    for place, point, above, below in SINES:
        low, high = recheck.sine_span([part * scale for part in place], 0, [*point, *point])
        exact = recheck.U * above // below
        # The box is a point, and half its diagonal, rounded up, 1 um: at most 3.4e-13 more than the budget.
        yield f"sine {place} {point}", low <= exact <= high and high - low < 2 * 6000 + 2 * 3500, True
    for sine, factor in FACTORS:
        low, high = recheck.mapping_span((sine, sine))
        digits = len(factor.partition(".")[2])
        yield f"factor {sine}", [f"{end / recheck.U:.{digits}f}" for end in (low, high)], [factor] * 2
        # The root's floor is one unit of at least 4.47e14: 501 units of the factor at most.
        yield f"factor {sine}, its width", high - low <= 504, True
    horizon, _ = SINES[0][:2]
    low, high = recheck.mapping_span(recheck.sine_span([part * scale for part in horizon], 0, [*SINES[0][1] * 2]))
    yield "the factor at the horizon", 223773 * 10**12 <= low <= high <= 223776 * 10**12, True
    # Seen from a corner of a box of 200 km its sine is in the span of the box, whose middle is the point.
    for place, point, _, _ in SINES:
        place, half = [part * scale for part in place], 10**11
        low, high = recheck.sine_span(place, 0, [part + sign * half for sign in (-1, 1) for part in point])
        corners = [[part + sign * half for part, sign in zip(point, signs)] for signs in product((-1, 1), repeat=3)]
        ends = [recheck.sine_span(place, 0, [*corner, *corner]) for corner in corners]
        yield f"corners {point}", low <= min(ends)[0] and max(ends)[1] <= high, True
    for sine, factor in SHELL_FACTORS:
        low, high = recheck.mapping_span((sine, sine), recheck.LAYERS["vertical"])
        digits = len(factor.partition(".")[2])
        yield f"factor of the shell {sine}", [f"{end / recheck.U:.{digits}f}" for end in (low, high)], [factor] * 2
        yield f"factor of the shell {sine}, its width", high - low <= 12, True
    # A span of sines round the horizon has its greatest factor there, and its least at the end farther from it.
    yield "factors round the horizon", recheck.mapping_span((-3 * 10**15, 10**15)), (
        recheck.mapping_span((3 * 10**15,) * 2)[0], recheck.mapping_span((0, 0))[1])
    # The factors 1 and 2: 1800 um become 1800 to 3600, give or take one; a negative delay is greatest with the least.
    for delay, wanted in ((1800, (1792, 3594)), (-1800, (-3608, -1806)), (0, (-8, -6))):
        yield f"bound of {delay}", recheck.bound_span(-7, delay, (recheck.U, 2 * recheck.U)), wanted
    files = recheck.Files(*zenith_paths(folder))
    (epoch,) = files.epochs
    (satellite, used), _ = files.satellites(epoch)
    lo, hi = files.row(epoch, satellite, used, files.box)[4:]
    # The factor is 1, to some 10^-11; the sum of the declared bounds is that of G01, -7000 and 9000. G is 2000 + 1.
    yield "lo at the zenith", lo[0] <= 1993000 and 1993001 <= lo[1] and lo[1] - lo[0] < 10, True
    yield "hi at the zenith", hi[0] <= 2509000 and 2509001 <= hi[1] and hi[1] - hi[0] < 10, True
    yield "G", files.bound_room, 2001
    # 10 m at the zenith over a box of 200 km: 10^7 * 2 * 10^11 / (3 * 10^9) = 666666666.6 um
    wide = SETTINGS.replace("half = 1\n", "half = [1, 100000000, 7]\n").replace("[2000, 2500]", "[-10000, 2500]")
    both = wide.replace("[-10000, 2500]", "[-10000, 2500]\nvertical = [0, 35000]")
    # and 35 m at the vertical: 35 * 10^6 * 2 * 10^11 / (175 * 10^9) = 40000000 um
    yield "G of both", recheck.Files(*zenith_paths(folder, both, "both")).bound_room, 706_670_666
    yield "G of a wide box", recheck.Files(*zenith_paths(folder, wide, "wide")).bound_room, 666_668_666


# Places 20,000 km off on the axes and in a plane of two of them; rows in order of their places and ranges, with errors
# of 0.1 m. Along x the box reaches a metre to both sides.
AXES = {"x": "20000000000000 20000000000000 0 0 0 0", "y": "0 0 20000000000000 20000000000000 0 0",
        "z": "0 0 0 0 20000000000000 20000000000000", "-y": "0 0 -20000000000000 -20000000000000 0 0",
        "xy": "12000000000000 12000000000000 16000000000000 16000000000000 0 0"}


def pair_log(outliers, rows, steps, version=3):
    """A log of one epoch whose rows are (place, what the range is more than 20,000 km)."""
    lines = [f"gpscover {version}", f"rules {outliers} 0 1000000", f"epoch 1 0 {len(rows)}"]
    for number, (place, more) in enumerate(rows, 1):
        length = 20000000000000 + more
        lines.append(f"sat G{number:02d} {AXES[place]} {length} {length} -100000 100000")
    return "\n".join([*lines, "root -1000000 -900000 -900000 1000000 900000 900000", *steps, "done 0", ""])


def pair_cases(folder):
    """(words, status and line) of boxes that pairs of rows show empty.

    At each point the offsets of two rows of one place are as far apart as their ranges, give or take 0.2 m. Over the
    box each clock span is 1.1 m from its middle to both sides, or 1 m on y and z, so spans half a metre apart meet.
    """
    out, cut = ["out 0"], ["cut 0 1 0", "out 0"]
    apart = [("x", 0), ("x", 500_000)]
    also = [("y", 0), ("y", 500_000)]
    three = [*apart, ("x", -500_000)]
    rest = [("z", 0), ("-y", 0), ("xy", 0)]
    yes = 0, "yes 0\n"
    for number, (outliers, rows, steps, wanted, plain) in enumerate((
            (0, apart + rest, out, yes, "no 58 OutNotShown line 10"),
            (0, apart + rest, cut, yes, "no 57 CutNotShown line 10"),
            (0, apart + rest, ["edge 0 -200000000000000 200000000000000"], (0, "yes 1\n"), "yes 1"),
            # U is at 100002.67 um: A is a um more than the length of v, and 1 um stands beside the range. L of the other
            # is 0.73 um less than its range less the error: 0.07 for the spread, 0.67 for the sum of h, as in U.
            (0, [("x", 0), ("x", 200_003)] + rest, out, "no 58 OutNotShown line 10", None),
            (0, [("x", 0), ("x", 200_004)] + rest, out, yes, None),
            # One row of one pair may be left out, and not one of each of two pairs.
            (1, apart + rest, out, "no 58 OutNotShown line 10", None),
            (1, apart + rest, cut, "no 57 CutNotShown line 10", None),
            (1, apart + also + rest, out, yes, "no 58 OutNotShown line 12"),
            (2, apart + also + rest, out, "no 58 OutNotShown line 12", None),
            # Of three rows each two of which are in conflict two have to be left out.
            (1, three + rest, out, yes, "no 58 OutNotShown line 11"),
            (2, three + rest, out, "no 58 OutNotShown line 11", None))):
        for version, told in ((3, wanted), (1, plain)):
            if told:
                log = written(folder, f"pairs{number}.{version}.log", pair_log(outliers, rows, steps, version))
                yield (log,), told if isinstance(told, tuple) else (int(told[:2] == "no"), told)
    few = "gpscover 3\nrules 1 0 1000000\nfew 1 0 0\n"
    for number, head in enumerate(("gpscover 5", "gpscover 02", "gpscover 03", "gpscover 3 ", "gpscover 13", "gpscover")):
        refused = 3, "log 40 BadLog line 1 kind 1\n"
        yield (written(folder, f"head{number}.log", few.replace("gpscover 3", head)),), refused
    for version in 2, 3, 4:
        yield (written(folder, f"head.{version}.log", few.replace("gpscover 3", f"gpscover {version}")),), yes


def pair_settings_cases(folder):
    """(words, status and line) of the key `search.pairs`, against the first line of a log."""
    plain = "gpscover 1\nrules 1 4096 1000000\nfew 1 1388620800070000000000 1\nskip G02 1\n"
    logs = {version: written(folder, f"first{version}.log", plain.replace("gpscover 1", f"gpscover {version}"))
            for version in (1, 2, 3, 4)}
    differs, yes = (1, "no 50 RulesDiffer line 2\n"), YES_0
    for number, (line, version, wanted) in enumerate((
            ("", 2, yes), ("pairs = true", 2, differs), ("renew = true", 1, yes), ("renew = true", 2, yes),
            ("renew = false", 2, yes), ("renew = true", 3, differs), ("renew = true\npairs = true", 3, yes),
            ("pairs = true\nrenew = true", 2, differs), ("renew = 1", 1, "32 WrongKind search.renew"),
            ('renew = "true"', 1, "32 WrongKind search.renew"), ("renew = [true]", 1, "32 WrongKind search.renew"),
            ("pairs = 1\nrenew = 1", 1, "32 WrongKind search.renew"), ("renews = true", 1, "34 Unknown search.renews"),
            ("[motion]\nrenew = true\n[search]", 1, "30 NotToml"),
            ("", 1, yes), ("", 3, differs), ("pairs = false", 1, yes), ("pairs = false", 3, differs),
            ("pairs = true", 1, differs), ("pairs = true", 3, yes), ("pairs = true", 4, yes),
            ("", 4, differs), ("pairs = false", 4, differs), ("renew = true", 4, differs),
            ("renew = true\npairs = true", 4, yes),
            ("pairs = 1", 1, "32 WrongKind search.pairs"), ('pairs = "true"', 1, "32 WrongKind search.pairs"),
            ("pairs = [true]", 1, "32 WrongKind search.pairs"), ("pair = true", 1, "34 Unknown search.pair"))):
        settings = SETTINGS.replace("max_age = 7200\n", f"max_age = 7200\n{line}\n")
        if isinstance(wanted, str):
            wanted = 3, f"settings {wanted}\n"
        yield (*zenith_paths(folder, settings, f"pairs{number}"), logs[version]), wanted
    # Both keys are tested behind `max_age`, `renew` first, and before the signal.
    for number, (key, (old, new, told)) in enumerate(product(("renew", "pairs"), (
            ("max_age = 7200\n", "", "31 Missing search.max_age"), ('mode = "single"\n', "", None)))):
        settings = SETTINGS.replace("max_age = 7200\n", f"max_age = 7200\n{key} = 1\n").replace(old, new)
        wanted = 3, f"settings {told or '32 WrongKind search.' + key}\n"
        yield (*zenith_paths(folder, settings, f"order{number}"), logs[1]), wanted
    # What clock spans show is shown in a log of the other version too.
    settings = re.sub(r"(?m)^(max_age = .*)$", r"\1\npairs = true", FILES[2].read_text())
    paths = [*FILES[:2], written(folder, "receiver.toml", settings)]
    other = written(folder, "receiver.log", LOG.read_text().replace("gpscover 1", "gpscover 3", 1))
    yield (*paths, other), (0, "yes 48\n")
    yield (*paths, LOG), differs
    yield (*FILES, other), differs


# By the mode and what stands behind the other tables of the settings: the first fault.
GALILEO = '[galileo]\ncodes = ["C1C", "C5Q"]\noffset = [-3, 5]\n'
INAV = GALILEO.replace("C5Q", "C7Q") + 'message = "I/NAV"\n'
BOTH_CASES = (
    ("dual", GALILEO, None),
    ("dual", GALILEO.replace('"C1C", ', ""), "33 Outside galileo.codes"),
    ("dual", GALILEO.replace("C5Q", "C2W"), "33 Outside galileo.codes"),
    ("dual", GALILEO.replace("C5Q", "C5q"), "33 Outside galileo.codes"),
    ("dual", GALILEO.replace('["C1C", "C5Q"]', "[1, 5]"), "32 WrongKind galileo.codes"),
    ("dual", "[galileo]\noffset = [1, 0]\n", "31 Missing galileo.codes"),
    ("dual", GALILEO.replace("offset = [-3, 5]", ""), "31 Missing galileo.offset"),
    ("dual", GALILEO.replace("-3", "-1000000").replace("5]", "1000000]"), None),
    ("dual", GALILEO.replace("-3", "-1000001"), "33 Outside galileo.offset"),
    ("dual", GALILEO.replace("-3", "6"), "33 Outside galileo.offset"),
    ("dual", GALILEO + "sign = 1\n", "34 Unknown galileo.sign"),
    ("dual", GALILEO + 'message = "F/NAV"\n', None),
    ("dual", GALILEO + 'message = "I/NAV"\n', "33 Outside galileo.codes"),
    ("dual", INAV, None),
    ("dual", INAV.replace("C7Q", "C7X"), None),
    ("dual", INAV.replace("C7Q", "C5Q"), "33 Outside galileo.codes"),
    ("dual", INAV.replace(', "C7Q"', ""), "33 Outside galileo.codes"),
    ("dual", INAV.replace("I/NAV", "F/NAV"), "33 Outside galileo.codes"),
    ("dual", INAV.replace("I/NAV", "i/nav"), "33 Outside galileo.message"),
    ("dual", INAV.replace("I/NAV", "INAV").replace("C7Q", "C2W"), "33 Outside galileo.message"),
    ("dual", INAV.replace('"I/NAV"', "1").replace("C7Q", "C2W"), "32 WrongKind galileo.message"),
    ("dual", INAV.replace('"I/NAV"', '["I/NAV"]'), "32 WrongKind galileo.message"),
    ("dual", INAV.replace("message", "messages"), "33 Outside galileo.codes"),
    ("dual", '[galileo]\nmessage = "I/NAV"\n', "31 Missing galileo.codes"),
    ("single", INAV, "33 Outside galileo.codes"),
    ("single", INAV.replace(', "C7Q"', ""), None),
    ("single", INAV.replace(', "C7Q"', "").replace("I/NAV", "F/NAV"), "33 Outside galileo.codes"),
    ("single", INAV.replace(', "C7Q"', "").replace("I/NAV", ""), "33 Outside galileo.message"),
    ("single", INAV.replace(', "C7Q"', "").replace("-3", "6"), "33 Outside galileo.offset"),
    ("single", INAV.replace(', "C7Q"', "") + "[satellite]\nE99 = [0, 1]\n", None),
    ("dual", GALILEO + "[satellite]\nE99 = [0, 1]\nG01 = [0, 1]\n", None),
    ("dual", GALILEO + "[satellite]\nG01 = [1, 0]\nE99 = [1, 0]\n", "33 Outside satellite.E99"),
    ("dual", GALILEO + "[satellite]\nE00 = [0, 1]\n", "34 Unknown satellite.E00"),
    ("dual", GALILEO + "[satellite]\nR01 = [0, 1]\n", "34 Unknown satellite.R01"),
    ("dual", "[satellite]\nE01 = [1, 0]\n", "34 Unknown satellite.E01"),
    ("single", GALILEO, "33 Outside galileo.codes"),
    ("single", "[galileo]\n", "33 Outside galileo.codes"),
    ("single", "[galileo]\n[motion]\nspeed = -1\n", "33 Outside galileo.codes"),
    ("dual", GALILEO + "[motion]\nspeed = -1\n[satellite]\nE01 = [1, 0]\n", "33 Outside motion.speed"),
    ("dual", "[motion]\nspeed = 1000000\n", None),
    ("dual", "[motion]\nspeed = 1000001\n", "33 Outside motion.speed"),
    ("dual", "[motion]\n", None),
)
# What the second field of line 5 of a Galileo record says, by the messages that keep the record: F/NAV by the bits 1 and 8,
# I/NAV by 9 and one of 0 and 2 where 1 and 8 are clear.
SOURCES = {
    "F/NAV": "258 259 262 770 771 774 1023 2.58E2",
    "I/NAV": "513 516 517 525 637 645 653 765 5.17E2",
    "": "0 1 2 5 256 257 260 261 512 514 515 518 519 769 772 773 1282 1541 -258 -517 258.5 517.000001 1024 1E30",
}
# Healths of a Galileo record that are healthy by I/NAV, and such as aren't: the bits 0 to 2 are E1's, 6 to 8 E5b's.
HEALTHS = {True: "0 8 16 24 32 40 48 56 1.6E1", False: "1 2 4 7 9 17 57 64 72 128 256 320 512 1024 1032 -8 8.5 1E30"}


def both_values():
    """(what, found, wanted) of settings with Galileo, of kept records, and of the two codes' combination."""
    single = SETTINGS.partition("[satellite]")[0]
    dual = single.replace('mode = "single"', 'mode = "dual"').replace('["C1C"]', '["C1C", "C2W"]')
    for mode, more, wanted in BOTH_CASES:
        try:
            found = recheck.Settings(((dual if mode == "dual" else single) + more).encode()) and None
        except recheck.Ended as end:
            found = end.args[1].removeprefix("settings ")
        yield f"{mode} {more!r}", found, wanted
    settings = recheck.Settings((dual + GALILEO + "[satellite]\nE05 = [-7, 11]\n").encode())
    common = settings.bounds
    for name, own in ((b"G05", [0, 0]), (b"E06", [-3000, 5000]), (b"E05", [-10_000, 16_000])):
        yield f"bounds of {name}", settings.bounds_of(name), [end + more for end, more in zip(common, own)]
    yield from message_values()


def message_values():
    """(what, found, wanted) of records by each message, and of the two codes' combination."""
    fnav, inav = recheck.MESSAGES["F/NAV"], recheck.MESSAGES["I/NAV"]
    for message, system in recheck.MESSAGES.items():
        for keeps, source in ((keeps, source) for keeps, sources in SOURCES.items() for source in sources.split(" ")):
            record = recheck.Record(system, 0, {"toe": 0, "source": recheck.decimal(source.encode(), exponent=True)})
            yield f"source {source} by {message}", record.is_kept(), keeps == message
    for healthy, health in ((healthy, health) for healthy, healths in HEALTHS.items() for health in healths.split(" ")):
        values = {"toe": 0, "health": recheck.decimal(health.encode(), exponent=True)}
        yield f"health {health}", recheck.Record(inav, 0, values).is_healthy(), healthy
        for system in (fnav, recheck.GPS):
            yield f"health {health}", recheck.Record(system, 0, values).is_healthy(), health == "0"
    yield "a record of GPS", recheck.Record(recheck.GPS, 0, {"toe": 0}).is_kept(), True
    # 23716 * 20000000 - 13225 * 20000005, over 10491, is 19999993.6969783..; with 13924 over 9792 19999992.8901143..
    for system, wanted in ((fnav, 19_999_993_696_978), (inav, 19_999_992_890_114)):
        measured = recheck.pseudorange([recheck.Fraction(20_000_000), recheck.Fraction(20_000_005)], system.weights)
        yield "a combination", int(measured * 10**6), wanted
    # The root of mu * 10^116 over the sixth power of 5440.6 * 10^12, and by the mu of GPS.
    for system, wanted in ((fnav, 1_239_733_955_228_326_673), (inav, 1_239_733_955_228_326_673),
                           (recheck.GPS, 1_239_734_045_735_644_270)):
        yield "a mean motion", recheck.isqrt(system.mu * 10**116 // 5_440_600_000_000_000**6), wanted


# The track of a receiver in a search box of 2 km along x and 40 m along y and z. In the first epoch all beyond 400 m
# along x is cut off: over each of these slabs the distances of G14 and G22 change by less than 390 m and 40 m, and
# those of G12, G05, G15 and G26 by 410 m and more the other way, of which one satellite may fail. Later epochs keep
# their whole roots. The epochs are a second apart, and the receiver makes at most 20 m/s, which is 20000000 um.
MIDDLE = (-3869309827800, 3436565477600, 3717365893700)  # the header's position
ALL_OFFSETS = "-200000000000000 200000000000000"
KEEP = (f"edge 0 {ALL_OFFSETS}", "done 0")
CUT = ("cut 0 0 -3869709827800", "cut 0 1 -3868909827800", *KEEP)
LOSE = ("out 0", "done 0")
MOVED = {"G18": 5_000_000_000, "G09": -5_000_000_000}  # um: with two of nine so far off no offset is left for eight
MOVED_CODES = (("G18  20374456.294", "G18  20379456.294"), ("G09  20466876.082", "G09  20461876.082"))
EPOCH_2 = "> 2008 05 26 05 59 30.9990000  0 11"


def root_line(low, high, along=20):
    """A root that reaches so many metres from the middle down and up along x, and up and down along y and z."""
    ends = [part * 10**6 for part in (-low, -along, -along, high, along, along)]
    return " ".join(["root", *(str(middle + end) for middle, end in zip(2 * MIDDLE, ends))])


def track_block(index, root, steps, moved=()):
    """The lines of an epoch, its rows wider by a metre than those of the receiver's log in a box of 400 m."""
    epoch = re.split(r"(?m)^(?=epoch)", LOG.read_text())[index].splitlines()
    lines = epoch[:1]
    for line in epoch[1:10]:
        _, name, *numbers = line.split(" ")
        numbers = [int(number) + (-10**6, 10**6)[place % 2] * (place < 8) for place, number in enumerate(numbers)]
        if name in moved:
            numbers[6:8] = [number + moved[name] for number in numbers[6:8]]
        lines.append(" ".join(["sat", name, *map(str, numbers)]))
    return [*lines, root, *steps]


def track_files(folder, name, obs=lambda text: text, speed="[motion]\nspeed = 20000\n"):
    """The receiver's files, with a speed behind the settings."""
    settings = re.sub(r"(?m)^half = .*$", "half = [1000000, 20000, 20000]", FILES[2].read_text()) + speed
    return [written(folder, f"{name}.obs", obs(FILES[0].read_text())), FILES[1],
            written(folder, f"{name}.toml", settings)]


def renewed_block(block, root):
    """The lines of an epoch whose rows are renewed as they are, behind the root and for the box of a root's line."""
    return [*block[:11], root.replace("root", "renew"), *block[1:10], *block[11:]]


def moved_codes(text):
    """The observations with two codes of the third epoch 5 km off."""
    for old, new in MOVED_CODES:
        assert text.count(old) == 1
        text = text.replace(old, new)
    return text


def three_left(text):
    """The observations with three satellites in the second epoch, G18, G09 and G12."""
    before, rest = text.split(EPOCH_2 + " " * 21 + "\n")
    lines = rest.splitlines(keepends=True)
    return "".join([before, EPOCH_2[:-2] + " 3\n", *lines[:3], *lines[11:]])


def track_cases(folder):
    """(words, status and line) of checks of a track: tests 51 and 55, and the key of the speed."""
    first, second, third, fourth = (
        track_block(1, root_line(1000, 1000), CUT), track_block(2, root_line(420, 420), KEEP),
        track_block(3, root_line(440, 440), KEEP), track_block(4, root_line(460, 460), KEEP))
    begun, lost = [first, second], track_block(3, root_line(440, 440), LOSE, MOVED)
    few = ["few 2 895816770999000000000 3"]
    plain, off = track_files(folder, "track"), track_files(folder, "off", moved_codes)
    anew = track_files(folder, "anew", moved_codes, "[motion]\nspeed = 20000\nrestart = true\n")
    left = track_files(folder, "left", three_left)
    still = track_files(folder, "still", speed="[motion]\nspeed = 0\n")
    for number, (paths, blocks, wanted, *options) in enumerate((
            (plain, [*begun, third, fourth], "yes 4"),
            # A root too small or too large by a um, one that grew on one side alone, or none at all.
            (plain, [first, track_block(2, root_line(420, 420)[:-3] + "699", KEEP)], "no 55 RootDiffers line 28"),
            (plain, [first, track_block(2, root_line(420, 420)[:-3] + "701", KEEP)], "no 55 RootDiffers line 28"),
            (plain, [first, track_block(2, root_line(420, 420, 19), KEEP)], "no 55 RootDiffers line 28"),
            (plain, [first, track_block(2, root_line(420, 400), KEEP)], "no 55 RootDiffers line 28"),
            (plain, [first, track_block(2, root_line(400, 420), KEEP)], "no 55 RootDiffers line 28"),
            (plain, [first, track_block(2, root_line(400, 400), KEEP)], "no 55 RootDiffers line 28"),
            # Beyond the search box along y and z; the search box itself, as `solve` has it.
            (plain, [first, track_block(2, root_line(420, 420, 40), KEEP)], "no 55 RootDiffers line 28"),
            (plain, [first, track_block(2, root_line(1000, 1000), KEEP)], "no 55 RootDiffers line 28"),
            (plain, [track_block(1, root_line(420, 420), KEEP)], "no 55 RootDiffers line 13"),
            # The roots of the epoch before, and of the one behind.
            (plain, [*begun, track_block(3, root_line(420, 420), KEEP)], "no 55 RootDiffers line 41"),
            (plain, [*begun, track_block(3, root_line(460, 460), KEEP)], "no 55 RootDiffers line 41"),
            # Whole epochs are missing.
            (plain, begun, "no 51 EpochDiffers line 31"),
            (plain, [first, third, fourth], "no 51 EpochDiffers line 18"),
            (plain, [], "no 51 EpochDiffers line 3"),
            # A part begins with the search box again, and ends where it is told to.
            (plain, begun, "yes 2", "--to", "2"),
            (plain, [track_block(2, root_line(1000, 1000), CUT), track_block(3, root_line(420, 420), KEEP)], "yes 2",
             "--from", "2", "--to", "3"),
            (plain, [second, third], "no 55 RootDiffers line 13", "--from", "2", "--to", "3"),
            # The third epoch keeps no box, which ends the track.
            (off, [*begun, lost], "yes 2"),
            (off, [*begun, lost], "yes 2", "--to", "3"),
            (off, [*begun, lost, fourth], "no 51 EpochDiffers line 44"),
            (off, [*begun, lost, track_block(4, root_line(1000, 1000), KEEP)], "no 51 EpochDiffers line 44"),
            (off, [*begun, lost, ["few 4 895816772999000000000 0"]], "no 51 EpochDiffers line 44"),
            (plain, [*begun, track_block(3, root_line(440, 440), LOSE)], "no 58 OutNotShown line 42"),
            # Behind it a track that restarts has the search box again, and behind an epoch with a box the usual root.
            (anew, [*begun, lost, track_block(4, root_line(1000, 1000), KEEP)], "yes 3"),
            (anew, [*begun, lost, fourth], "no 55 RootDiffers line 54"),
            (anew, [*begun, lost], "no 51 EpochDiffers line 44"),
            (anew, [*begun, lost], "yes 2", "--to", "3"),
            (anew, [first, track_block(2, root_line(1000, 1000), KEEP)], "no 55 RootDiffers line 28"),
            # Over an epoch of few satellites the root grows on, and one without boxes ends no track.
            (left, [first, few, third, fourth], "yes 3"),
            (left, [first, few, track_block(3, root_line(420, 420), KEEP), fourth], "no 55 RootDiffers line 29"),
            (left, [few, track_block(3, root_line(1000, 1000), CUT), track_block(4, root_line(420, 420), KEEP)],
             "yes 2", "--from", "2"),
            (left, [few, ["few 3 895816771999000000000 3"]], "no 52 SatelliteDiffers line 4", "--from", "2"),
            (left, [few], "yes 0", "--from", "2", "--to", "2"),
            # A receiver that stands still.
            (still, [first, track_block(2, root_line(400, 400), KEEP)], "yes 2", "--to", "2"),
            (still, begun, "no 55 RootDiffers line 28", "--to", "2"))):
        text = "\n".join(["gpscover 1", "rules 1 12 1000000", *(line for block in blocks for line in block), ""])
        log = written(folder, f"track{number}.log", text)
        yield ("--track", *paths, log, *options), (0 if wanted.startswith("yes") else 1, wanted)
    # Renewals lie in the epoch's own root, and the next root is what they leave it.
    for number, (renewed, wanted) in enumerate((
            (renewed_block(second, second[10]), "yes 4"),
            (renewed_block(second, root_line(421, 420)), "no 65 BadRenew line 29"),
            (renewed_block(second, root_line(419, 420)), "no 65 BadRenew line 29"),
            (renewed_block(second, first[10]), "no 65 BadRenew line 29"))):
        blocks = [first, renewed, renewed_block(third, third[10]), fourth]
        text = "\n".join(["gpscover 2", "rules 1 12 1000000", *(line for block in blocks for line in block), ""])
        log = written(folder, f"renewedtrack{number}.log", text)
        yield ("--track", *plain, log), (0 if wanted.startswith("yes") else 1, wanted)
    # Bounds lie in the epoch's own boxes, of which the first epoch has what its cuts leave, and move no root.
    by_pairs = re.sub(r"(?m)^(max_age = .*)$", r"\1\npairs = true", plain[2].read_text())
    paths = [*plain[:2], written(folder, "bounded.toml", by_pairs)]
    for number, (ends, wanted) in enumerate((
            ((400, 420), "yes 4"), ((400, 400), "no 66 BoundNotShown line 34"), ((399, 420), "no 66 BoundNotShown line 18"))):
        behind = [[f"bound 1 0 0 {MIDDLE[0] + end * 10**6} 2", *(f"by 1{f' {place} 0' * 5}" for place in (0, 1))] for end in ends]
        lines = [*first, *behind[0], *second, *behind[1], *third, *fourth]
        log = written(folder, f"boundedtrack{number}.log", "\n".join(["gpscover 4", "rules 1 12 1000000", *lines, ""]))
        yield ("--track", *paths, log), (0 if wanted.startswith("yes") else 1, wanted)
    # A track goes on behind another log: from what its last paved epoch keeps, over few ones, or from the search box.
    earlier = {
        "first": [first], "second": [*begun], "few": [first, few], "lost": [*begun, lost], "none": [few], "empty": [],
        "wrong": [*begun, track_block(3, root_line(440, 440), LOSE)], "wide": [track_block(1, root_line(1001, 1000), KEEP)],
    }
    heads = ["gpscover 1", "rules 1 12 1000000"]
    for name, blocks in earlier.items():
        text = "\n".join([*heads, *(line for block in blocks for line in block), ""])
        earlier[name] = written(folder, f"earlier-{name}.log", text)
    earlier |= {"missing": Path(folder) / "missing.log", "text": plain[2]}
    begins_anew = track_block(4, root_line(1000, 1000), KEEP)
    for number, (paths, name, blocks, wanted, *options) in enumerate((
            (plain, "first", [second, third, fourth], "yes 3", "--from", "2"),
            (plain, "second", [third, fourth], "yes 2", "--from", "3"),
            (plain, "first", [third], "yes 1", "--from", "3", "--to", "3"), (plain, "second", [fourth], "yes 1", "--from", "4"),
            # As behind another epoch, and as behind none.
            (plain, "second", [track_block(3, root_line(460, 460), KEEP)], "no 55 RootDiffers line 13", "--from", "3", "--to", "3"),
            (plain, "first", [track_block(2, root_line(1000, 1000), KEEP)], "no 55 RootDiffers line 13", "--from", "2", "--to", "2"),
            (left, "few", [third, fourth], "yes 2", "--from", "3"),
            (off, "lost", [begins_anew], "yes 1", "--from", "4"), (off, "lost", [fourth], "no 55 RootDiffers line 13", "--from", "4"),
            (plain, "none", [begins_anew], "yes 1", "--from", "4"), (plain, "empty", [begins_anew], "yes 1", "--from", "4"),
            (plain, "wrong", [fourth], "after 44 BadAfter line 42\n", "--from", "4"),
            (plain, "wide", [fourth], "after 45 OutsideBox\n", "--from", "4"),
            (plain, "missing", [fourth], "after fault\n"),
            (plain, "text", [fourth], "after 40 BadLog line 1 kind 1\n"))):
        text = "\n".join([*heads, *(line for block in blocks for line in block), ""])
        log = written(folder, f"aftertrack{number}.log", text)
        status = {"y": 0, "n": 1}.get(wanted[0], 4 if "fault" in wanted else 3)
        yield ("--track", *paths, log, *options, "--after", earlier[name]), (status, wanted)
    log = written(folder, "plain.log", "\n".join(["gpscover 1", "rules 1 12 1000000", *first, *second, ""]))
    yield (*plain, log, "--to", "2"), (1, "no 55 RootDiffers line 28")  # as `check`
    yield ("--track", *FILES, LOG), (3, "settings 31 Missing motion.speed\n")


def speed_cases(folder):
    """(words, status and line) of the table `motion`, with and without `--track`."""
    few = written(folder, "speed.log", "gpscover 1\nrules 1 4096 1000000\nfew 1 1388620800070000000000 1\nskip G02 1\n")
    missing, kind, range_ = "31 Missing motion.speed", "32 WrongKind motion.speed", "33 Outside motion.speed"
    no_truth, unasked = "32 WrongKind motion.restart", "33 Outside motion.restart"
    for number, (text, moving, plain) in enumerate((
            ("", missing, YES_0), ("[motion]\n", missing, YES_0),
            ("[motion]\nspeed = 0\n", YES_0, YES_0), ("[motion]\nspeed = 1000000\n", YES_0, YES_0),
            ("[motion]\nspeed = 1000001\n", range_, range_), ("[motion]\nspeed = -1\n", range_, range_),
            ("[motion]\nspeed = 20.0\n", kind, kind), ("[motion]\nspeed = true\n", kind, kind),
            ("[motion]\nspeed = [20]\n", kind, kind), ("[[motion]]\nspeed = 20\n", kind, kind),
            # Beginning anew is tested behind the speed, which it needs.
            ("[motion]\nspeed = 0\nrestart = true\n", YES_0, YES_0), ("[motion]\nrestart = false\nspeed = 0\n", YES_0, YES_0),
            ("[motion]\nrestart = true\n", unasked, unasked), ("[motion]\nrestart = false\n", unasked, unasked),
            ("[motion]\nspeed = 0\nrestart = 1\n", no_truth, no_truth), ("[motion]\nrestart = 'true'\n", no_truth, no_truth),
            ("[motion]\nspeed = -1\nrestart = 1\n", range_, range_), ("[motion]\nspeed = '1'\nrestart = true\n", kind, kind),
            # An unknown name is told before a speed that is missing.
            ("[motion]\nsped = 20\n", "34 Unknown motion.sped", "34 Unknown motion.sped"))):
        paths = zenith_paths(folder, SETTINGS + text, f"speed{number}")
        for words, wanted in ((("--track", *paths, few), moving), ((*paths, few), plain)):
            yield words, wanted if isinstance(wanted, tuple) else (3, f"settings {wanted}\n")
    # The speed is tested behind `zenith`, and before the satellites.
    for number, (old, new, wanted) in enumerate((
            ("[2000, 2500]", "1", "32 WrongKind bounds.zenith"), ("[-7, 9]", "1", kind))):
        paths = zenith_paths(folder, SETTINGS.replace(old, new) + "[motion]\nspeed = true\n", f"motion{number}")
        yield (*paths, few), (3, f"settings {wanted}\n")


def tube_values(folder):
    """(what, found, wanted) of how far a receiver comes, of boxes that are grown by it, and of what hangs on a root."""
    second = recheck.SECOND
    for speed, start, end, wanted in (
            (1000, 0, 30 * second, 30_000_000), (1, 0, 1, 1), (20_000, 5 * second, 4 * second, 20_000_000),
            (0, 0, second, 0), (1000, 7, 7, 0), (1, 0, 10**9, 1), (1, 0, 10**9 + 1, 2), (1, 10**9 + 1, 0, 2)):
        yield f"reach at {speed} mm/s from {start} to {end}", recheck.reach(speed, start, end), wanted
    box, search = [-1000000, -900000, -900000, 1000000, 900000, 900000], [-50000000] * 3 + [50000000] * 3
    for length, wanted in ((0, box), (30_000_000, [-31000000, -30900000, -30900000, 31000000, 30900000, 30900000]),
                           (49_050_000, [-50000000, -49950000, -49950000, 50000000, 49950000, 49950000]),
                           (10**12, search)):
        yield f"a box grown by {length}", recheck.grown(box, length, search), wanted
    # W and G of a root whose longest side is 4 km, with 2.5 m at the zenith; and one that comes within 6,000 km.
    files = recheck.Files(*zenith_paths(folder))
    for low, near in ((6 * 10**12, False), (6 * 10**12 - 1, True)):
        files.move_to([low, 0, -10**9, low + 7, 5, 3 * 10**9])
        found = files.room, files.bound_room, files.low_place
        yield f"a root from x = {low}", found, (102_000, 3_335_333, near)
    yield "hull", recheck.hull([[0, 5, -3, 1, 6, -2], [-4, 5, -9, -3, 7, -8]]), [-4, 5, -9, 1, 7, -2]


# A receiver with a station: four epochs of eight satellites, all of which the station has too. With q = 8 every epoch has
# too few satellites, so that a log is no more than what is usable.
PAIR = TOP / "examples/station"
PAIR_STARTS = [(796435200 + 30 * index) * 10**12 for index in range(4)]
SEEN = "G03 G07 G08 G11 G19 G20 G24 G28".split()


def pair_text(name):
    """The text of a file of the example with a station."""
    return (PAIR / name).read_text()


def replaced(text, old, new, place=0):
    """A text in which the occurrence of a number, or the first, is another text."""
    parts = text.split(old)
    assert len(parts) > place + 1, old
    return old.join(parts[:place + 1]) + new + old.join(parts[place + 1:])


def pair_paths(folder, name, outliers=8, **texts):
    """The receiver's files and the words of the station, some with other texts, and q of the settings."""
    settings = texts.get("settings", pair_text("settings.toml"))
    settings = settings.replace("outliers = 1\n", f"outliers = {outliers}\n").replace("half = 1000000", "half = 200000")
    new = texts | {"settings": settings}
    made = {kind: written(folder, f"pair-{name}.{kind}", new[kind]) for kind in new}
    paths = [made.get(kind, PAIR / own) for kind, own in (
        ("obs", "receiver.obs"), ("nav", "receiver.nav"), ("settings", ""))]
    return paths, ["--station", made.get("station", PAIR / "station.obs")]


def few_log(folder, name, skips=()):
    """A log of four epochs of too few satellites, in which some (epoch, satellite) are skipped for a reason."""
    lines = ["gpscover 3", "rules 8 64 100000"]
    for index, start in enumerate(PAIR_STARTS, 1):
        left = [(satellite, dict(skips).get((index, satellite))) for satellite in SEEN]
        lines.append(f"few {index} {start} {sum(reason is None for _, reason in left)}")
        lines += [f"skip {satellite} {reason}" for satellite, reason in left if reason]
    return written(folder, f"pair-{name}.log", "\n".join([*lines, ""]))


def station_line(satellite, epoch):
    """A line of the station's file: a satellite in an epoch."""
    return [line for line in pair_text("station.obs").splitlines(keepends=True) if line.startswith(satellite)][epoch - 1]


def without_line(satellite, epoch):
    """The station's file without a satellite in an epoch."""
    text = pair_text("station.obs")
    heads = [line for line in text.splitlines() if line[0] == ">"]
    text = replaced(text, heads[epoch - 1], heads[epoch - 1].replace("  0  9", "  0  8"))
    return replaced(text, station_line(satellite, epoch), "")


def with_code(satellite, epoch, code, second=None):
    """The station's file with other codes of a satellite in an epoch."""
    line = station_line(satellite, epoch)
    new = f"{line[:3]}{code:>14}{line[17:]}"
    new = new if second is None else f"{new[:35]}{second:>14}{new[49:]}"
    return replaced(pair_text("station.obs"), line, new)


def without_epoch(epoch, text=None):
    """The station's file without an epoch."""
    head, *epochs = re.split(r"(?m)^(?=>)", text or pair_text("station.obs"))
    return "".join([head, *(it for number, it in enumerate(epochs, 1) if number != epoch)])


def at_minute(minute):
    """The station's file, its epochs so many minutes later."""
    return re.sub(r"(?m)^> 2005 04 02 00 0", f"> 2005 04 02 00 {minute // 10}", pair_text("station.obs"))


def with_age(age, max_age=7200):
    """The settings with another age of the station's epochs."""
    return pair_text("settings.toml").replace("age = 30", f"age = {age}").replace("max_age = 7200", f"max_age = {max_age}")


def all_of(*epochs, reason=8):
    """Each satellite is skipped in these epochs."""
    return {(epoch, satellite): reason for epoch in epochs for satellite in SEEN}


def station_skip_cases(folder):
    """(words, status and line) of what is usable with a station: reasons 8 and 9, and which epoch of it goes with one."""
    nav = pair_text("receiver.nav")
    clock = re.search(r"G08 (2005 04 02 00 00 00)", nav).group()
    record = nav[nav.index(clock):].splitlines()
    root = record[2][61:80]
    cases = (
        ("plain", {}, {}),
        ("lacks", {"station": without_line("G08", 2)}, {(2, "G08"): 8}),
        ("blank", {"station": with_code("G08", 2, "")}, {(2, "G08"): 8}),
        ("zero", {"station": with_code("G08", 2, "0.000")}, {(2, "G08"): 8}),
        ("near", {"station": with_code("G08", 2, "14999999.999")}, {(2, "G08"): 8}),
        # The codes of both are 5,000 km apart, and a mm more: 16.7 ms.
        ("above", {"station": with_code("G03", 1, "29767686.375")}, {}),
        ("far", {"station": with_code("G03", 1, "29767686.376")}, {(1, "G03"): 9}),
        ("below", {"station": with_code("G03", 1, "19767686.375")}, {}),
        ("under", {"station": with_code("G03", 1, "19767686.374")}, {(1, "G03"): 9}),
        # Of the epochs before and behind, as near as each other, the later one is taken.
        ("gap", {"station": without_epoch(3)}, {}),
        ("later", {"station": without_epoch(3, without_line("G08", 4))}, {(3, "G08"): 8, (4, "G08"): 8}),
        ("earlier", {"station": without_epoch(3, without_line("G08", 2))}, {(2, "G08"): 8}),
        ("old", {"station": without_epoch(3), "settings": with_age(29)}, all_of(3)),
        ("first", {"station": without_epoch(1), "settings": with_age(29)}, all_of(1)),
        ("last", {"station": without_epoch(4), "settings": with_age(29)}, all_of(4)),
        # Ten minutes off, and another day.
        ("ten", {"station": at_minute(10), "settings": with_age(600)}, {}),
        ("nine", {"station": at_minute(10), "settings": with_age(599)}, all_of(1)),
        ("day", {"station": pair_text("station.obs").replace("> 2005 04 02", "> 2005 04 03")}, all_of(1, 2, 3, 4)),
        ("none", {"station": re.split(r"(?m)^(?=>)", pair_text("station.obs"))[0]}, all_of(1, 2, 3, 4)),
        # A clock time that is 6 h from both epochs, and more; a root of the axis.
        ("toc", {"nav": nav.replace(clock, "G08 2005 04 01 18 00 00")}, {(epoch, "G08"): 9 for epoch in (2, 3, 4)}),
        ("axis", {"nav": nav.replace(root, " 5.600000000000D+03")}, {}),
        ("odd", {"nav": nav.replace(root, " 5.600000000001D+03")}, {(epoch, "G08"): 9 for epoch in (1, 2, 3, 4)}),
        # What isn't usable by the receiver alone isn't judged by the station.
        ("both", {"obs": replaced(pair_text("receiver.obs"), "23407378.219", " " * 12), "station": without_line("G08", 1)},
         {(1, "G08"): 1}),
        # A station at the pole.
        ("pole", {"settings": re.sub(r"place = \[.*", "place = [0, 0, 6356752000]", pair_text("settings.toml"))}, {}))
    for name, texts, skips in cases:
        paths, station = pair_paths(folder, name, **texts)
        yield (*paths, few_log(folder, name, skips), *station), YES_0
        if skips:
            yield (*paths, few_log(folder, f"{name}0"), *station), (1, "no 52 SatelliteDiffers line "
                                                                    f"{2 + min(epoch for epoch, _ in skips)}\n")
    # With two codes the combinations are compared: 5929 of the first less 3600 of the second, over 2329.
    dual = pair_text("settings.toml").replace('"single"', '"dual"').replace('["C1C"]', '["C1C", "C2W"]')
    for name, first, second, skips in (
            ("exact", "29767686.375", "29767684.822", {}), ("more", "29767686.376", "29767684.822", {(1, "G03"): 9}),
            ("less", "29767686.375", "29767684.821", {(1, "G03"): 9}), ("low", "19767686.375", "19767684.822", {}),
            ("lower", "19767686.374", "19767684.822", {(1, "G03"): 9}), ("half", "29767686.375", "", {(1, "G03"): 8})):
        paths, station = pair_paths(folder, f"dual{name}", settings=dual, station=with_code("G03", 1, first, second))
        yield (*paths, few_log(folder, f"dual{name}", skips), *station), YES_0


def station_file_cases(folder):
    """(words, status and line) of files that are refused, of the order of reading, and of the words without the table."""
    log = few_log(folder, "files")
    settings, station = pair_text("settings.toml"), pair_text("station.obs")
    bare = re.sub(r"(?ms)^\[station\].*?(?=\n# Two)", "", settings)
    place = re.search(r"place = .*", settings).group()
    heads = [number for number, line in enumerate(station.splitlines(), 1) if line[0] == ">"]
    end = heads[0] - 1
    rows = station.splitlines(keepends=True)
    twice = "".join(rows[:heads[1] - 1] + rows[heads[0] - 1:])
    same = station.replace("00 00 30.0000000", "00 00 00.0000000")
    event = "".join(rows[:heads[1] - 1] + [">" + " " * 30 + "4  0\n"] + rows[heads[0] - 1:])
    header = settings.replace(place, 'place = "header"')
    for number, (texts, wanted) in enumerate((
            ({"settings": bare}, "settings 31 Missing station.place"),
            ({"settings": bare + "[station]\n"}, "settings 31 Missing station.place"),
            ({"settings": bare + "[station]\nage = 30\n"}, "settings 31 Missing station.place"),
            ({"settings": bare + f"[station]\n{place}\n"}, "settings 31 Missing station.age"),
            ({"settings": "station = 1\n" + bare}, "settings 32 WrongKind station.place"),
            ({"settings": settings.replace(place, "place = 1")}, "settings 32 WrongKind station.place"),
            ({"settings": settings.replace(place, "place = [1, 2, 3.0]")}, "settings 32 WrongKind station.place"),
            ({"settings": settings.replace(place, 'place = "heads"')}, "settings 33 Outside station.place"),
            ({"settings": settings.replace(place, "place = [1, 2]")}, "settings 33 Outside station.place"),
            # 3960000^2 + 5280000^2 = 6600000^2, in m; a mm more is outside.
            ({"settings": settings.replace(place, "place = [3960000000, -5280000000, 0]")}, YES_0),
            ({"settings": settings.replace(place, "place = [3960000000, -5280000001, 0]")},
             "settings 33 Outside station.place"),
            ({"settings": settings.replace(place, "place = [3960000000, -5280000000, 1]")},
             "settings 33 Outside station.place"),
            ({"settings": with_age(0)}, "settings 33 Outside station.age"),
            ({"settings": with_age(601)}, "settings 33 Outside station.age"),
            ({"settings": with_age(600, 13800)}, YES_0),
            ({"settings": with_age(600, 13801)}, "settings 33 Outside station.age"),
            ({"settings": with_age("30.0")}, "settings 32 WrongKind station.age"),
            ({"settings": settings.replace("age = 30", "age = 30\nclock = 1")}, "settings 34 Unknown station.clock"),
            # Its header has 0 0 0, which is near enough to the origin.
            ({"settings": header}, YES_0),
            ({"settings": header, "station": station.replace("APPROX POSITION XYZ", "OTHER POSITION XYZ ")},
             f"station 28 NoPosition line {end}"),
            *(({"settings": header, "station": station.replace("        0.0000        0.0000        0.0000", place, 1)}, said)
              for place, said in (
                ("  3960000.0000  5280000.0000        0.0000", YES_0),
                ("  3960000.0000  5280000.0000        0.0010", "settings 33 Outside station.place"),
                ("  8500000.0000        0.0000        0.0000", "settings 33 Outside station.place"),
                ("  8500000.0010        0.0000        0.0000", f"station 28 NoPosition line {end}"))),
            ({"settings": header, "station": same.replace("        0.0000        0.0000", "  8000000.0000        0.0000", 1)},
             f"station 43 NotRising line {heads[1]}"),
            ({"station": same}, f"station 43 NotRising line {heads[1]}"),
            ({"station": twice}, f"station 43 NotRising line {heads[1]}"),
            ({"station": event}, f"station 43 NotRising line {heads[1] + 1}"),
            # Before a fault of the lines behind it, and behind the other faults of its own.
            ({"station": same.replace("23514323", "2351x323")}, f"station 43 NotRising line {heads[1]}"),
            ({"station": station.replace("00 00 30.0000000", "00 00 60.0000000")}, f"station 19 BadEpoch line {heads[1]}"),
            ({"station": station.replace("G    4 C1C", "G    4 C1W")}, f"station 16 CodeAbsent line {end}"),
            # Files are read one after another: settings, navigation, station, observations, log.
            ({"nav": "", "station": ""}, "nav 10 NotRinex line 1"),
            ({"station": "", "obs": ""}, "station 10 NotRinex line 1"),
            ({"obs": ""}, "obs 10 NotRinex line 1"))):
        paths, words = pair_paths(folder, f"file{number}", **texts)
        wanted = wanted if isinstance(wanted, tuple) else (3, wanted + "\n")
        yield (*paths, log, *words), wanted
    paths, words = pair_paths(folder, "table")
    yield (*paths, log), (3, "settings 33 Outside station.place\n")
    yield (*paths, log, "--station", folder + "/nothing"), (4, "station fault\n")
    yield ("--track", *paths, log, *words), (3, "settings 31 Missing motion.speed\n")


def row_log(folder, name, paths, station, epochs=2):
    """A log of the first epochs of some files, whose rows are own ones of the second checker made wider by W and G."""
    files = recheck.Files(*map(str, paths), 1, epochs, False, station and str(station))
    lines = ["gpscover 3", "rules 1 64 100000"]
    for epoch in files.epochs:
        rooms = files.rooms(files.box)
        found = files.satellites(epoch)
        lines.append(f"epoch {epoch.index} {epoch.time} {len(found)}")
        for satellite, used in found:
            spans = [(low - room, high + room) for (low, high), room in zip(
                files.row(epoch, satellite, used, files.box), rooms)]
            (least, sure_low), (sure_high, most) = spans[4:]
            ends = [end for span in spans[:4] for end in span] + [least, most, sure_low, sure_high]
            lines.append(" ".join(["sat", satellite.decode(), *map(str, ends)]))
        lines += ["root " + " ".join(map(str, files.box)), *KEEP]
    return written(folder, f"pair-{name}.log", "\n".join([*lines, ""]))


def station_row_cases(folder):
    """(words, status and line) of rows of differences: G08's is on line 6 of the first epoch, and 18 of the second."""
    last = ["--to", "2"]
    paths, words = pair_paths(folder, "rows", 1)
    log = row_log(folder, "rows", paths, words[1])
    yield (*paths, log, *words, *last), (0, "yes 2\n")
    yield (*paths, log, *last, *words), (0, "yes 2\n")
    code = float(station_line("G08", 2)[3:17])
    # W is 12 mm here.
    for number, (moved, wanted) in enumerate((
            (3, "no 53 RowNarrow line 18"), (-3, "no 53 RowNarrow line 18"), (0.02, "no 53 RowNarrow line 18"),
            (0.005, "yes 2\n"), (-0.005, "yes 2\n"))):
        others, station = pair_paths(folder, f"moved{number}", 1, station=with_code("G08", 2, f"{code + moved:.3f}"))
        yield (*others, log, *station, *last), (1 if wanted[0] == "n" else 0, wanted)
    lacking, station = pair_paths(folder, "lacking", 1, station=without_line("G08", 2))
    yield (*lacking, log, *station, *last), (1, "no 52 SatelliteDiffers line 15\n")
    # The station's place 2 cm off, and the receiver's epochs with those of the station 30 s later.
    place = pair_text("settings.toml").replace("[-3978241958,", "[-3978241938,")
    others, station = pair_paths(folder, "aside", 1, settings=place)
    yield (*others, log, *station, *last), (1, "no 53 RowNarrow line 4")
    others, station = pair_paths(folder, "beside", 1, station=without_epoch(1))
    yield (*others, log, *station, *last), (1, "no 53 RowNarrow line 4")
    # A log with a station without one, and the other way.
    bare = re.sub(r"(?ms)^\[station\].*?(?=\n# Two)", "", pair_text("settings.toml"))
    alone, _ = pair_paths(folder, "bare", 1, settings=bare)
    yield (*alone, log, *last), (1, "no 53 RowNarrow line 4")
    yield (*paths, row_log(folder, "bare", alone, None), *words, *last), (1, "no 53 RowNarrow line 4")


# The folder goes with the tests' process.
ROOM = tempfile.TemporaryDirectory()
WORDS = (verdict_cases, bound_cases, two_bound_cases, zenith_cases, mapped_cases, pair_cases, pair_settings_cases,
         track_cases, speed_cases, selection_cases, station_skip_cases, station_file_cases, station_row_cases)
VALUES = value_cases, tube_values
ALONE = both_values, bound_values, left_values


def named(makers, *more):
    """The cases of some functions, each with a name of its own."""
    for maker in makers:
        for number, case in enumerate(maker(*more)):
            yield pytest.param(*case, id=f"{maker.__name__} {number}")


CASES = [*named(WORDS, ROOM.name)]


def expect(found, wanted):
    """A status and a line are the wanted ones."""
    status, line = found
    if wanted[1].startswith("no 53"):  # the own span behind it isn't found by hand
        line = line[:len(wanted[1])]
    assert (status, line) in (wanted, (wanted[0], wanted[1] + "\n"))


@pytest.mark.parametrize("words, wanted", [*CASES, *named([wrong_word_cases])])
def test_the_second_checker_says(words, wanted):
    expect(verdict(*words), wanted)


@pytest.mark.parametrize("words, wanted", CASES)
def test_the_program_says(program, words, wanted):
    expect(program_verdict(program, words), wanted)


@pytest.mark.parametrize("what, found, wanted", [*named(VALUES, ROOM.name), *named(ALONE)])
def test_a_value(what, found, wanted):
    assert found == wanted, what


def imported(source):
    """The modules that a file imports, and what it takes of them."""
    nodes = list(ast.walk(ast.parse(source.read_text())))
    names = {alias.name for node in nodes if isinstance(node, ast.Import) for alias in node.names}
    return names | {f"{'.' * node.level}{node.module or ''}.{alias.name}" for node in nodes
                    if isinstance(node, ast.ImportFrom) for alias in node.names}


def test_it_stands_alone(room):
    """It has the standard library alone, and runs with nothing of the repository beside it."""
    source = TOP / "second/recheck.py"
    assert {name.partition(".")[0] for name in imported(source)} <= sys.stdlib_module_names
    shutil.copy(source, room)
    words = [sys.executable, "-I", "recheck.py", *FILES, LOG]
    ran = subprocess.run(words, cwd=room, env={}, capture_output=True, text=True, check=False)
    assert (ran.returncode, ran.stdout, ran.stderr) == (0, "yes 48\n", "")


def test_nothing_imports_it():
    files = [path for folder in ("python", "second", "tools", "workflow") for path in (TOP / folder).rglob("*.py")]
    assert files and not [path for path in files if any(re.match(r"(second\.)?recheck\b", it) for it in imported(path))]
