"""Numbers that the equations of docs/EQUATIONS.md allow lie in the second checker's own rows."""
import re
from itertools import product

import pytest

from tools.compare.second import recheck
from tools.compare import sample
from tools.forged_logs import DATA

# Bounds, and half a side of the search box in mm: boxes of 400 m and 300 m, and of 2 mm and 4 mm, where own spans are narrow.
BOXES = (
    ("[1800, 3000]", 200_000),
    ("[2500, 2500]", 1),
    ("[1800, 3000]\nvertical = [-7000, 35000]", 150_000),
    ("[2500, 2500]\nvertical = [10000, 10000]", 2),
)


def files_of(folder, zenith, half):
    """The files of the recorded receiver with the troposphere mapped by elevation."""
    settings = re.sub(r"(?m)^(troposphere = .*)$", rf"\1\nzenith = {zenith}", (DATA / "settings.toml").read_text())
    path = folder / "mapped.toml"
    path.write_text(re.sub(r"(?m)^half = .*$", f"half = {half}", settings))
    return recheck.Files(str(DATA / "receiver.obs"), str(DATA / "receiver.nav"), str(path))


def outside(files, epoch, satellite, used):
    """The names of numbers outside of the own row, drawn as the equations leave them at corners of the box."""
    row, codes, settings = (files.row(epoch, satellite, used, files.box), epoch.satellites[satellite], files.settings)
    for number, signs in enumerate(product((0, 1), repeat=3)):
        draw = sample.Drawer(("low", "high", "any", "mixed")[number % 4], 100 * number + int(satellite[1:]))
        point = [files.box[axis + 3 * sign] for axis, sign in enumerate(signs)]
        numbers = sample.allowed(
            draw, used[1], epoch.time, codes, settings.dual, point, settings.delays, settings.bounds_of(satellite)
        )
        for name, number, (low, high) in zip(sample.NAMES, numbers, row, strict=True):
            if not low <= number <= high:
                yield name


@pytest.mark.parametrize("zenith, half", BOXES)
def test_drawn_numbers_lie_in_own_rows(room, zenith, half):
    files = files_of(room, zenith, half)
    epoch = files.epochs[0]
    rows = [(satellite, used) for satellite, used in files.satellites(epoch) if used[0] == "sat"]
    assert len(rows) == 9
    for satellite, used in rows:
        assert list(outside(files, epoch, satellite, used)) == [], satellite
