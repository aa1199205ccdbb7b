"""The page of a run: tables, the curve of how far the regions reach, and a map. The same bytes for the same database."""
import html
import math
import sqlite3
import statistics
from collections import Counter, defaultdict

from gpscover.geodesy import geodetic

HOURS = range(24)
SHARES = range(0, 101, 2)  # percent of the epochs, of the points of a curve
COLOURS = "#1f77b4 #d95f02 #1b9e77 #7570b3 #e7298a #66a61e #a6761d #666666".split()
WIDE, HIGH, EDGE = 460, 300, 50  # of a picture, and of the room beside it
STYLE = """body { font: 14px/1.4 sans-serif; margin: 2em; color: #222 }
table { border-collapse: collapse; margin: 1em 0; white-space: nowrap }
caption { text-align: left; padding: .3em 0 }
th, td { padding: .15em .5em; text-align: right; font-variant-numeric: tabular-nums }
th { font-weight: 600; background: #f2f2f2 } td.few { background: #fff3c4 } td.none { background: #ffd5d0 }
svg { font: 12px sans-serif; margin-right: 1em }"""
INTRO = """Each epoch here is of a log that <code>gpscover check</code> or, of a track, <code>retrack</code> accepted: if
the receiver was in its search box, all but q of the usable satellites kept the bounds that the settings declare, and of a
track it kept the declared speed, and all of this since its piece of the track began, it was in the region. A small region
that isn't empty shows nothing about the bounds. Lengths are those of the kept boxes, and in epochs that are
<em>certified</em> those of certified bounds; none is of a probability."""
NONE = "–"
SUMS = (
    "station,epochs,with a region,reach the box,few,empty,lost,pieces of tracks,certified,median E × N × U m,greatest"
).split(",")
HOUR_HEAD = ["station", *map(str, HOURS)]
LEVELS = "station,regions,held,certified,median HPL × VPL m,greatest,available,misleading,hazardous".split(",")


# ---- tables


def share_class(share):
    """The mark of a share of epochs."""
    return "none" if share < 0.5 else "few" if share < 0.95 else ""


def cell(text, mark="", link=""):
    """A cell of a table."""
    text = html.escape(f"{text:,}" if isinstance(text, int) else text)
    text = f'<a href="{html.escape(link)}">{text}</a>' if link else text
    return f'<td class="{mark}">{text}</td>' if mark else f"<td>{text}</td>"


def table(caption, head, lines):
    """A table; the first of each line is its head. None where it has no lines."""
    rows = "".join(f"<tr><th>{html.escape(first)}</th>{''.join(cells)}</tr>\n" for first, *cells in lines)
    heads = "".join(f"<th>{html.escape(word)}</th>" for word in head)
    return f"<table><caption>{html.escape(caption)}</caption>\n<tr>{heads}</tr>\n{rows}</table>\n" if lines else ""


class Gathered:
    """What the database has of a station."""

    COLUMNS = (
        "day, mark, substr(gps_time, 12, 2), began_day, began_epoch, suspects, certified, held, hpl_m, vpl_m,"
        " horizontal_reach_m, vertical_reach_m, available, misleading, hazardous, east_m, north_m, up_m"
    )

    def __init__(self, base, station):
        self.days, self.available, self.marks = Counter(), Counter(), Counter()
        self.sums, self.suspects = Counter(), Counter()
        self.extents, self.reaches, self.levels, self.pieces = defaultdict(list), [], [], {}
        words = f"SELECT {self.COLUMNS} FROM epochs WHERE station = ? ORDER BY day, epoch"
        for day, mark, hour, began_day, began_epoch, suspects, *values in base.execute(words, (station,)):
            self.marks[mark] += 1
            self.suspects.update(suspects.split())
            if began_day is not None:
                self.pieces.setdefault((began_day, began_epoch), Counter())[day] += 1
            if values[0] is not None:
                self.add(day, int(hour), mark == "reaches", values)

    def add(self, day, hour, is_cut, values):
        """Takes an epoch with a region, which the search box may cut."""
        certified, held, hpl, vpl, across, up, available, misleading, hazardous, *extent = values
        self.days[day] += 1
        self.available[day] += available or 0
        self.extents[hour].append(extent)
        self.reaches += [] if is_cut else [(across, up)]
        counts = {"certified": certified, "held": held, "available": available}
        counts |= {"misleading": misleading, "hazardous": hazardous}
        self.sums.update({key: count or 0 for key, count in counts.items()})
        if held is not None:
            self.levels.append((hpl, vpl))

    def all_extents(self):
        """The extents of all hours."""
        return [extent for hour in HOURS for extent in self.extents[hour]]

    def all_cells(self):
        """The cells of the table of all days."""
        whole = self.all_extents()
        counts = [sum(self.marks.values()), len(whole), *(self.marks[it] for it in ("reaches", "few", "empty"))]
        track = [self.marks["lost"], len(self.pieces)] if self.pieces else [NONE, NONE]
        return map(
            cell, [*counts, *track, self.sums["certified"], lengths(whole, statistics.median), lengths(whole, max)]
        )

    def chain_cells(self):
        """The cells of the pieces that go on through more than a day, and the others' count."""
        long = {began: days for began, days in sorted(self.pieces.items()) if len(days) > 1}
        for (day, epoch), days in long.items():
            yield cell(f"{day} epoch {epoch}: {len(days)} days, {sum(days.values()):,} epochs")
        if others := len(self.pieces) - len(long):
            yield cell(f"and {others:,} of one day")

    def known_cells(self, limits):
        """The cells of the table of known places and limits."""
        known = [len(self.levels), self.sums["held"], self.sums["certified"]] if self.levels else [NONE] * 3
        known += [lengths(self.levels, statistics.median), lengths(self.levels, max)]
        known += [self.sums["available"]] if limits else [NONE]
        are_judged = limits and self.levels
        return map(cell, known + [self.sums[it] if are_judged else NONE for it in ("misleading", "hazardous")])


class Found:
    """What the page says of a station, of so many expected epochs. It has no list that grows with the epochs."""

    def __init__(self, gathered, limits, expected):
        self.days, self.available, self.suspects = gathered.days, gathered.available, gathered.suspects
        self.share = sum(gathered.days.values()) / expected
        self.sums = list(gathered.all_cells())
        self.known = list(gathered.known_cells(limits)) if gathered.levels or limits else None
        self.chains = list(gathered.chain_cells())
        self.hours = [cell(lengths(gathered.extents[hour], statistics.median)) for hour in HOURS]
        self.reaches = [reach_shares([pair[k] for pair in gathered.reaches], expected) for k in range(2)]


def reach_shares(values, expected):
    """Of some percents of the expected epochs how far their regions reach at most: the length and the percents."""
    in_order = sorted(values)
    lasts = ((share, math.ceil(expected * share / 100)) for share in SHARES)
    return [(in_order[last - 1], share) for share, last in lasts if 0 < last <= len(in_order)]


def lengths(values, of):
    """The median or greatest lengths in m."""
    return " × ".join(f"{of(axis):.1f}" for axis in zip(*values)) if values else NONE


def day_cells(base, station, counts, expected, links):
    """The cells of the days of a station, by the count of each; they lead to the days' pages."""
    for day in base.days:
        if (station, day) in base.absent:
            yield cell("absent", "none")
        elif (station, day) not in base.given:
            yield cell("")
        else:
            share = counts[day] / expected
            yield cell(f"{100 * share:.1f} %", share_class(share), links and f"{links}/{station}/{day}.html")


# ---- pictures


def drawn(title, body):
    """A picture."""
    size = f'width="{WIDE + 2 * EDGE}" height="{HIGH + 2 * EDGE}"'
    frame = f'<rect x="{EDGE}" y="{EDGE}" width="{WIDE}" height="{HIGH}" fill="none" stroke="#999"/>'
    return f'<svg {size}><text x="{EDGE}" y="{EDGE - 12}">{html.escape(title)}</text>{frame}{"".join(body)}</svg>\n'


def label(x, y, text, anchor="middle", colour="#222"):
    """A word in a picture."""
    return f'<text x="{x:.1f}" y="{y:.1f}" text-anchor="{anchor}" fill="{colour}">{html.escape(text)}</text>'


def curves(title, reaches, limit):
    """How far regions reach, a curve for each station; the limit is a line."""
    most = 40 * math.ceil(max([limit or 1, *(length for its in reaches.values() for length, _ in its)]) / 40)
    body = [label(EDGE + WIDE * k / 4, EDGE + HIGH + 16, f"{most * k / 4:.0f} m") for k in range(5)]
    body += [label(EDGE - 6, EDGE + HIGH * (1 - k / 4) + 4, f"{25 * k} %", "end") for k in range(5)]
    if limit:
        x = EDGE + WIDE * limit / most
        body.append(f'<path d="M{x:.1f} {EDGE}v{HIGH}" stroke="#999" stroke-dasharray="4"/>')
    for number, (name, its) in enumerate(reaches.items()):
        points = " ".join(f"{EDGE + WIDE * at / most:.1f},{EDGE + HIGH * (1 - share / 100):.1f}" for at, share in its)
        told, colour = f"<title>{html.escape(name)}</title>", COLOURS[number % len(COLOURS)]
        body.append(f'<polyline points="{points}" fill="none" stroke="{colour}" stroke-width="1.5">{told}</polyline>')
    return drawn(title, body)


def map_of(places, shares):
    """Where the stations are by longitude and latitude: the share of epochs with a region is the colour of each."""
    at = {name: [math.degrees(angle) for angle in geodetic(place)[1::-1]] for name, place in places.items()}
    if not at:
        return ""
    east, north = ([point[k] for point in at.values()] for k in range(2))
    middle = (min(east) + max(east)) / 2, (min(north) + max(north)) / 2
    narrow = math.cos(math.radians(middle[1]))
    wide, high = max((max(east) - min(east)) * narrow, 0.02), max(max(north) - min(north), 0.02)
    scale = 0.8 * min(WIDE / wide, HIGH / high)
    corner = f"{abs(middle[1]):.3f}° {'NS'[middle[1] < 0]}, {abs(middle[0]):.3f}° {'EW'[middle[0] < 0]}"
    body = [label(EDGE + WIDE / 2, EDGE + HIGH + 16, f"{WIDE / scale * 111.2:.0f} km wide round {corner}")]
    for name, (longitude, latitude) in at.items():
        x = EDGE + WIDE / 2 + scale * narrow * (longitude - middle[0])
        y = EDGE + HIGH / 2 - scale * (latitude - middle[1])
        colour = {"": "#2ca02c", "few": "#e6b800", "none": "#d62728"}[share_class(shares[name])]
        told = f"<title>{html.escape(name)} {100 * shares[name]:.1f} %</title>"
        body.append(f'<circle cx="{x:.1f}" cy="{y:.1f}" r="5" fill="{colour}">{told}</circle>')
        body.append(label(x + 8, y + 4, name, "start"))
    return drawn("Stations, by the share of epochs with a region: 95 % or more, 50 %, less", body)


def legend(names):
    """The colours of the curves."""
    words = [
        f'<span style="color: {COLOURS[number % len(COLOURS)]}">{html.escape(name)}</span>'
        for number, name in enumerate(names)
    ]
    return f"<p>{' · '.join(words)}. Regions that the search box cuts aren't in the curves.</p>\n"


# ---- the page


class Base:
    """What the page reads of the database, in which a day has so many epochs where none is missing."""

    def __init__(self, path, epochs):
        base = sqlite3.connect(f"file:{path}?mode=ro", uri=True)
        self.given = set(base.execute("SELECT DISTINCT station, day FROM files"))
        self.absent = set(base.execute("SELECT station, day FROM absent"))
        self.days = sorted({day for _, day in self.given | self.absent})
        self.limits = base.execute("SELECT * FROM limits").fetchone()
        self.chained = {name for (name,) in base.execute("SELECT DISTINCT station FROM files WHERE role = 'after'")}
        days = Counter(name for name, _ in self.given | self.absent)
        self.found = {name: Found(Gathered(base, name), self.limits, epochs * days[name]) for name in sorted(days)}
        columns = ", ".join(f"ifnull(known_{axis}_mm, {axis}_mm)" for axis in "xyz")
        words = f"SELECT station, {columns} FROM stations WHERE ifnull(known_x_mm, x_mm) IS NOT NULL ORDER BY station"
        self.places = {name: [at / 1000 for at in place] for name, *place in base.execute(words) if name in self.found}
        base.close()

    def within(self):
        """The limits."""
        return f"{self.limits[0]:g} × {self.limits[1]:g} m" if self.limits else "none"


def pictures(base):
    """The curves and the map."""
    pairs, limits = base.found.items(), base.limits or (None, None)
    told = "Share of the epochs, by how far the region reaches "
    ground, up = ({name: it.reaches[k] for name, it in pairs} for k in range(2))
    return (
        curves(told + "along the ground", ground, limits[0])
        + curves(told + "up", up, limits[1])
        + legend(base.found)
        + map_of(base.places, {name: it.share for name, it in pairs})
    )


def by_day(base, expected, links):
    """The tables of the days."""
    head = ["station", *base.days]
    kinds = {"with a region": lambda it: it.days, f"within the limits of {base.within()}": lambda it: it.available}
    for what, counts in list(kinds.items())[: 2 if base.limits else 1]:
        lines = [[name, *day_cells(base, name, counts(it), expected, links)] for name, it in base.found.items()]
        yield table(f"Availability: epochs {what}, of {expected:,} a day", head, lines)


def page(path, expected, links=""):
    """The page of a database, in which a day has so many epochs where none is missing. The pages of days, if there are
    any, stand in the folder `links`."""
    base = Base(path, expected)
    pairs = base.found.items()
    known = [[name, *it.known] for name, it in pairs if it.known]
    broken = [
        [name, *(cell(f"{who}: {count:,}") for who, count in sorted(it.suspects.items()))]
        for name, it in pairs
        if it.suspects
    ]
    chains = [[name, *it.chains] for name, it in pairs if name in base.chained]
    return (
        '<!DOCTYPE html>\n<html lang="en"><meta charset="utf-8"><title>Regions of the network</title>\n'
        f"<style>{STYLE}</style>\n<h1>Regions of the network</h1>\n<p>{INTRO}</p>\n"
        + table("All days", SUMS, [[name, *it.sums] for name, it in pairs])
        + table(f"Known places, and limits along the ground and up: {base.within()}", LEVELS, known)
        + "".join(by_day(base, expected, links))
        + table("Chains: where a piece of a track begins", ["station"], chains)
        + pictures(base)
        + table("Satellites that surely broke their bounds: in how many epochs", ["station"], broken)
        + table(
            "Median extents E × N × U in m, by the hour of GPS time",
            HOUR_HEAD,
            [[name, *it.hours] for name, it in pairs],
        )
        + "</html>\n"
    )
