#!/usr/bin/env python3
"""Draws numbers that the equations of EQUATIONS.md allow, and tells how far they are from recheck.py's middle values.

    python3 -m tools.compare.sample OBS NAV SETTINGS LOG ROWS DRAWS

The equations are followed as they are printed, with whole numbers; where they leave a choice, one is drawn at random,
or the least or the greatest is taken all the time. Each result has to lie in the own row of recheck.py, and in the
own row of the program that made the log (its spans with W taken off at both ends, those of the bounds with G). Where
the settings have `bounds.zenith` or `bounds.vertical`, lo and hi are drawn too.
"""

import random
import sys
from fractions import Fraction
from math import factorial, isqrt

from tools.compare.second import recheck

U = 10**16
H = 157079632679489661923
EARTH = 729211514670000000
LIGHT = 299792458
RAISED = 100673949674228  # 1 / (1 - f)^2 of WGS 84, in 10^-14
NAMES = ("x", "y", "z", "P", "lo", "hi")
UNITS = {"af0": 10**16, "af1": 10**22, "af2": 10**28, "crs": 10**6, "dn": 10**22, "m0": U, "cuc": U, "e": U, "cus": U,
         "root_a": 10**12, "toe": 10**12, "cic": U, "om0": U, "cis": U, "i0": U, "crc": 10**6, "omega": U,
         "omdot": 10**22, "idot": 10**22, "tgd": 10**16}


# The terms of the Taylor sums, over U^last * last!: (power, factor of rest^power).
TERMS = {last: [(power, (-1) ** (power // 2) * U ** (last - power) * (factorial(last) // factorial(power)))
                for power in range(last % 2, last + 1, 2)] for last in (15, 16, 17, 18)}


def taylor_sum(rest, last):
    """The Taylor sum of the sine (`last` is odd) or the cosine of rest / U up to the power `last`."""
    return Fraction(sum(factor * rest**power for power, factor in TERMS[last]), U**last * factorial(last))


class Drawer:
    """Chooses among whole numbers: at random, or always the same end."""

    def __init__(self, way, seed):
        self.way, self.random = way, random.Random(seed)

    def of(self, low, high):
        """A whole number from low to high."""
        if low > high:
            raise AssertionError("the equations leave nothing")
        way = self.random.choice(("low", "high", "any")) if self.way == "mixed" else self.way
        return low if way == "low" else high if way == "high" else self.random.randint(low, high)

    def near(self, above, below):
        """A number v with v ~ above / below."""
        return self.of(-((below - above) // below), (above + below) // below)

    def fields(self, values):
        """A number of each field."""
        return {name: self.of(*recheck.numbers_of(value, UNITS[name])) for name, value in values.items()
                if name in UNITS}

    def ends(self, x, of_cosine, every_rest=False):
        """The least and greatest sine, or cosine, of x for a drawn rest, or for any."""
        k = (20000 * x + H) // (2 * H)
        middle = 10000 * x - k * H
        low, high = -((10000 - middle) // 10000), (middle + 10000) // 10000
        rests = range(low, high + 1) if every_rest else [self.of(low, high)]
        quarter = (k + of_cosine) % 4
        found = []
        for rest in rests:
            sums = [taylor_sum(rest, last) for last in ((16, 18) if quarter % 2 else (15, 17))]
            if quarter > 1:
                sums = [-value for value in sums]
            found += [(min(sums) * U - 1).__ceil__(), (max(sums) * U + 1).__floor__()]
        return min(found), max(found)

    def sine(self, x):
        """A sine of x."""
        return self.of(*self.ends(x, 0))

    def cosine(self, x):
        """A cosine of x."""
        return self.of(*self.ends(x, 1))

    def anomaly(self, mean, e):
        """An eccentric anomaly of a mean anomaly."""
        middle, _, _ = recheck.eccentric_anomaly(mean * recheck.ONE // U, e * recheck.ONE // U, mean * recheck.ONE // U)
        guess = middle * U >> recheck.BITS
        found = []
        for anomaly in range(guess - 6, guess + 7):
            least_fits = anomaly * U - e * self.ends(anomaly, 0, True)[1] <= mean * U
            if least_fits and mean * U <= (anomaly + 1) * U - e * self.ends(anomaly + 1, 0, True)[0]:
                found.append(anomaly)
        return self.of(min(found), max(found))


# Of each layer: the numerator in thousandths, the floor in 10^-32, and the sine's factor as a fraction (EQUATIONS.md, 5).
EQUATIONS = {10_000: (1001, 2001 * 10**26, 1, 1),
             100_000: (1000, 10133458172795012207442187408082, 63781363, 67281363)}


def mapped(draw, place, point, layer):
    """One choice of a layer's factor that the equations allow of a turned place at a grid point."""
    scale, floor, part, whole = EQUATIONS[layer.most]
    x, y, z = point
    raised = draw.near(z * RAISED, 10**14)
    length = isqrt(x * x + y * y + raised * raised)
    up = [draw.near(part * U, length) for part in (x, y, raised)]
    way = isqrt(sum((there - here) ** 2 for there, here in zip(place, point)))
    line = [draw.near((there - here) * U, way) for there, here in zip(place, point)]
    sine = draw.near(sum(a * b for a, b in zip(up, line)), U)
    slant = isqrt(floor + (abs(sine) * part // whole) ** 2)
    return draw.near(scale * U * U, 1000 * slant)


def allowed(draw, record, time, values, dual, point, delays=(), declared=(0, 0)):
    """One choice of X2, Y2, Z and P that the equations allow at a grid point, and with delays straight up of lo and hi."""
    codes = [draw.of(*recheck.numbers_of(value, 10**6)) for value in values]
    first, second = record.system.weights
    measured = draw.near(first * codes[0] - second * codes[1], first - second) if dual else codes[0]
    f = draw.fields(record.values)
    tsv = draw.near(time * LIGHT - measured * 10**6, LIGHT)
    dc = tsv - record.toc
    a1 = draw.near(f["af1"] * 10**18 + f["af2"] * dc, 10**18)
    poly = draw.near(f["af0"] * 10**18 + a1 * dc, 10**18)
    base = poly if dual else poly - f["tgd"]
    t0 = draw.near(tsv * 10**4 - base, 10**4)
    tk0 = t0 - (record.week + f["toe"])
    n = isqrt(record.system.mu * 10**116 // f["root_a"] ** 6) + f["dn"]
    mean = draw.near(f["m0"] * 10**18 + n * tk0, 10**18)
    s0 = draw.sine(draw.anomaly(mean, f["e"]))
    dtr = draw.near(record.system.relativity * f["e"] * f["root_a"] * s0, 10**47)
    dt = base + dtr
    t = draw.near(tsv * 10**4 - dt, 10**4)
    corrected = draw.near(measured * 10**10 + LIGHT * dt, 10**10)

    f = draw.fields(record.values)
    e = f["e"]
    tk = t - (record.week + f["toe"])
    axis = draw.near(f["root_a"] ** 2, 10**18)
    anomaly = draw.anomaly(draw.near(f["m0"] * 10**18 + n * tk, 10**18), e)
    cos_e, sin_e = draw.cosine(anomaly), draw.sine(anomaly)
    g = draw.near(U * U - e * cos_e, U)
    w = isqrt(U * U - e * e)
    cn, sn = draw.near((cos_e - e) * U, g), draw.near(w * sin_e, g)
    cw, sw = draw.cosine(f["omega"]), draw.sine(f["omega"])
    cp, sp = draw.near(cn * cw - sn * sw, U), draw.near(sn * cw + cn * sw, U)
    c2, s2 = draw.near(cp * cp - sp * sp, U), draw.near(2 * sp * cp, U)
    du, dr, di = [draw.near(f[sine] * s2 + f[cosine] * c2, U)
                  for sine, cosine in (("cus", "cuc"), ("crs", "crc"), ("cis", "cic"))]
    cd, sd = draw.cosine(du), draw.sine(du)
    cu, su = draw.near(cp * cd - sp * sd, U), draw.near(sp * cd + cp * sd, U)
    r = draw.near(axis * g + dr * U, U)
    i = draw.near((f["i0"] + di) * 10**18 + f["idot"] * tk, 10**18)
    ci, si = draw.cosine(i), draw.sine(i)
    x, y = draw.near(r * cu, U), draw.near(r * su, U)
    node = draw.near(f["om0"] * 10**18 + (f["omdot"] - EARTH) * tk - EARTH * f["toe"], 10**18)
    co, so = draw.cosine(node), draw.sine(node)
    place = [draw.near(x * co * U - y * ci * so, U * U), draw.near(x * so * U + y * ci * co, U * U),
             draw.near(y * si, U)]
    seen = place
    for _ in range(2):
        way = isqrt(sum((here - there) ** 2 for here, there in zip(seen, point)))
        th = draw.near(EARTH * way, LIGHT * 10**12)
        ct, st = draw.cosine(th), draw.sine(th)
        seen = [draw.near(place[0] * ct + place[1] * st, U), draw.near(place[1] * ct - place[0] * st, U), place[2]]
    ends = list(declared)
    for layer, upward in delays:
        factor = mapped(draw, seen, point, layer)
        ends = [end + draw.near(delay * factor, U) for end, delay in zip(ends, upward)]
    return seen + [corrected] + (ends if delays else [])


def main():
    """Draws for some rows of a log."""
    *paths, log, rows, draws = sys.argv[1:]
    files = recheck.Files(*paths)
    lines = recheck.read_log(recheck.read_file("log", log, recheck.LOG_LIMIT))
    found, epochs = [], iter(files.epochs)
    for word, values in lines:
        if word in (b"epoch", b"few"):
            epoch = next(epochs)
            used, box = dict(files.satellites(epoch)), files.box
        if word == b"renew":
            box = values
        if word == b"sat":
            found.append((epoch, values, used[values[0]], box))
    choose = random.Random(1)
    outside = [0, 0]
    names = NAMES if files.settings.delays else NAMES[:4]
    least, greatest = [0] * len(names), [0] * len(names)
    for epoch, (satellite, *logged), used, box in choose.sample(found, min(int(rows), len(found))):
        row = files.row(epoch, satellite, used, box)
        theirs = [(low + room, high - room) for (low, high), room in zip(recheck.row_spans(logged), files.rooms(box))]
        codes = dict(epoch.satellites)[satellite]
        for number in range(int(draws)):
            ways = ("low", "high", "any", "mixed")
            draw = Drawer(ways[number] if number < 4 else choose.choice(ways[2:]), number)
            side = choose.randrange(3)
            point = [draw.of(box[axis], box[axis + 3]) if side else
                     choose.choice((box[axis], box[axis + 3])) for axis in range(3)]
            result = allowed(draw, used[1], epoch.time, codes, files.settings.dual, point, files.settings.delays,
                             files.settings.bounds_of(satellite))
            for axis, value in enumerate(result):
                middle = sum(row[axis])
                least[axis] = min(least[axis], (2 * value - middle) // 2)
                greatest[axis] = max(greatest[axis], (2 * value - middle) // 2)
                for number_of, (low, high) in enumerate((row[axis], theirs[axis])):
                    if not low <= value <= high:
                        outside[number_of] += 1
                        whose = ("own", "the program's")[number_of]
                        print("outside of", whose, "row:", epoch.index, satellite.decode(), names[axis], value, low,
                              high)
    print("draws outside of own rows", outside[0], "of the program's", outside[1])
    print("least and greatest distance of a draw from the own row's middle, um:", *names, least, greatest)


if __name__ == "__main__":
    main()
