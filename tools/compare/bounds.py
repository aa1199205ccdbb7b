"""Logs with bounds for compare.py: right ones, forged ones and drawn ones.

They come of tools/bound_cases.py, over a root that is one box, or of the search of `gpslog bounded`, behind the steps
of a log, some of them behind bounds along the axes that narrow the hull. Many have something changed: whether a bound
is right is for both checkers to say. For those over one box the definitions of bound_cases.py say it too.
"""

from gpscover.bound_search import bounds_over
from gpscover.bounded import bounds_along, directions
from gpscover.log import Interval, blocks
from gpscover.row_sums import AXES
from tools.bound_cases import (GREATEST_AIM, GREATEST_END, GREATEST_MULTIPLIER, HalfSpace, Sum, Table, add_any, add_receivers,
                               bound_lines, changed_sum, is_shown, kept_hull, row_line)

WHOLE = "edge 0 -200000000000000 200000000000000"  # holds each clock hull that a log may have


def text(lines):
    """The bytes of a log of these lines."""
    return "".join(line + "\n" for line in lines).encode()


def as_cases(bounds):
    """Bounds as tools/bound_cases.py has them."""
    return [
        (HalfSpace(it.direction, it.most), [Sum(one.aim, list(map(tuple, one.terms))) for one in it.sums]) for it in bounds
    ]


def fits(half, sums):
    """Whether a log can have a bound."""
    terms = [times for one in sums for _, times in one.terms]
    return (1 <= len(sums) <= 64 and max(map(abs, terms)) <= GREATEST_MULTIPLIER and abs(half.end) <= GREATEST_END
            and max(map(abs, half.direction)) <= 10**6 and all(0 <= one.aim <= GREATEST_AIM for one in sums))


# ---- over one box


class OneBox(Table):
    """Takes the cases of a table as logs: (name, lines, answer)."""

    def __init__(self):
        super().__init__()
        self.used, self.logs = [], []

    def rows(self, rows):
        self.used = rows

    def sought(self, box, outliers, direction, least):
        pass

    def bound(self, forms, box, outliers, half, sums):
        if not sums or not fits(half, sums) or len(self.used) < outliers + 4:
            return
        head = ["gpscover 4", f"rules {outliers} 0 1000", f"epoch 1 0 {len(self.used)}", *map(row_line, self.used)]
        head += [" ".join(["root", *map(str, box)]), WHOLE, "done 0"]
        shown = is_shown(forms, box, outliers, half, sums)
        answer = "yes 1" if shown else f"no 66 BoundNotShown line {len(head) + 1}"
        self.logs.append((f"bounds over one box {len(self.logs)}", head + bound_lines(half, sums), answer))


def over_one_box(chance, number):
    """So many (name, lines, answer) of logs whose root is one box: half of them with rows of any size."""
    drawn, made = OneBox(), OneBox()
    while len(drawn.logs) < number - number // 2:
        add_any(drawn, chance, 4)
    while len(made.logs) < number // 2:
        add_receivers(made, chance, 3)
    return chance.sample(drawn.logs, number - number // 2) + chance.sample(made.logs, number // 2)


# ---- behind the steps of a log


def other_bounds(chance, bounds, rows):
    """(name, bounds) with something changed in one of some bounds."""
    at = chance.randrange(len(bounds))
    half, sums = bounds[at]
    k = chance.randrange(len(sums))
    how = chance.choice(["as they are"] * 3 + ["an end less", "another end", "another direction", "a sum less", "a sum twice",
                                               "other sums", "a sum of no rows", "sums of another bound", "another order"]
                        + ["a sum changed"] * 3)
    if how == "an end less":
        half = half._replace(end=half.end - 1)
    elif how == "another end":
        half = half._replace(end=half.end + chance.choice((1, -1)) * chance.randint(1, 10 ** chance.randint(1, 15)))
    elif how == "another direction":
        axis, by = chance.randrange(3), chance.choice((1, -1, 1000, -1000))
        half = HalfSpace(tuple(part + by * (axis == k) for k, part in enumerate(half.direction)), half.end)
    elif how == "a sum less":
        sums = sums[:k] + sums[k + 1 :]
    elif how == "a sum twice":
        sums = [*sums, sums[k]]
    elif how == "other sums":
        sums = [*sums[:k], chance.choice([one for _, other in bounds for one in other]), *sums[k + 1 :]]
    elif how == "a sum of no rows":
        sums = [*sums, Sum(chance.choice((0, 1, 2**44)), [(chance.randrange(rows), 0)] * 5)]
    elif how == "sums of another bound":
        sums = chance.choice(bounds)[1]
    elif how == "another order":
        sums = chance.sample(sums, len(sums))
    elif how == "a sum changed":
        sums = [*sums[:k], changed_sum(chance, sums[k], rows), *sums[k + 1 :]]
    return how, [*bounds[:at], *[(half, sums)] * fits(half, sums), *bounds[at + 1 :]]


class Behind:
    """An epoch of a log, its lines up to `done`, and its bounds by the rows in use there and by ones with narrower errors."""

    def __init__(self, head, lines, epoch):
        self.lines = [*head, *lines]
        self.rows = epoch.renewals[-1].rows if epoch.renewals else epoch.rows
        self.hull, self.root, self.done = kept_hull(epoch), epoch.root, len(self.lines) - 1
        self.narrow = [self.narrower(row) for row in self.rows]
        ways = directions(self.root, 4)
        by_narrow = bounds_over(self.narrow, self.hull, epoch.outliers, ways)
        self.bounds, self.by_narrow = as_cases(bounds_along(epoch, ways)), as_cases(by_narrow)
        self.behind_axes = as_cases(bounds_along(epoch, [*AXES, *ways]))

    @staticmethod
    def narrower(row):
        """A row whose error is declared a tenth narrower."""
        by = row.error.width // 20
        error = Interval(row.error.low + by, row.error.high - by)
        return type(row)(row.satellite, row.place, row.range, error, error)

    def renewals(self, chance):
        """(name, lines) of up to two renewals in front of `done`, where any box in the root will do."""
        names, lines = [], []
        for _ in range(chance.choice((0, 0, 1, 1, 2))):
            less = list(self.hull)
            side = chance.randrange(6)
            less[side] += 1 if side < 3 else -1
            where, box = chance.choice((("the hull", self.hull), ("the root", self.root), ("less than the hull", less)))
            what, rows = chance.choice((("its rows", self.rows), ("narrower rows", self.narrow)))
            lines += [" ".join(["renew", *map(str, box)]), *map(row_line, rows)]
            names.append(f"{what} over {where}")
        return ", ".join(names) or "not renewed", lines

    def chosen(self, chance):
        """(name, bounds): up to three bounds in any order, or most of those behind bounds along the axes, in theirs."""
        if chance.randrange(3) == 0:
            number = len(self.behind_axes)
            left = sorted(chance.sample(range(number), number - chance.choice((0, 0, 1, 2, 4))))
            return "bounds behind the axes", [self.behind_axes[k] for k in left]
        name, some = chance.choice((("its bounds", self.bounds), ("bounds by narrower rows", self.by_narrow)))
        return name, chance.sample(some, chance.randint(1, min(3, len(some))))

    def log(self, chance):
        """(name, lines) of this epoch with bounds behind it."""
        renewed, lines = self.renewals(chance)
        name, few = self.chosen(chance)
        how, few = other_bounds(chance, few, len(self.rows))
        behind = [line for half, sums in few for line in bound_lines(half, sums)]
        return f"{renewed}; {name}, {how}", [*self.lines[: self.done], *lines, self.lines[self.done], *behind]


def epochs_of(log):
    """The paved epochs of a log (bytes) that have a bound, each as a log by itself."""
    texts = log.decode().splitlines()
    starts = [at for at, line in enumerate(texts) if line.startswith(("epoch ", "few "))]
    for epoch, start, end in zip(blocks(iter(texts)), starts, [*starts[1:], len(texts)]):
        if epoch.kept:
            one = Behind(["gpscover 4", texts[1]], texts[start:end], epoch)
            if one.bounds and one.by_narrow:
                yield one


def with_bounds(chance, log, number):
    """(name, changed log): `number` logs of one epoch of a log each, with bounds behind it."""
    epochs = list(epochs_of(log))
    for _ in range(number if epochs else 0):
        name, lines = chance.choice(epochs).log(chance)
        yield name, text(lines)
