#!/usr/bin/env python3
"""Writes the files of the receiver of `made_files` and of a station beside it, and has them solved and checked.

usage: python3 -m tools.made.made_station SEED EPOCHS [--folder FOLDER] [--program GPSCOVER]

The station stands 2.7 km from the receiver, and its clock is 1 ms ahead. Its noise comes from the same draws, so each error of
the receiver is one of the station too, but for the outliers of 500 m, which the receiver alone has. So bounds of 20 mm hold
for the differences, where those of one receiver are 2.5 m. The place has to lie in a kept box of each epoch at a clock span
that holds -1 ms, the receiver's clock offset less the station's.

Exit status: 0; 1 where a run fails or the place isn't held; 2 for a wrong command line.
"""
from gpscover.command import run_tool
from gpscover.errors import Error
from gpscover.log import UM_PER_M, epochs
from tools.made.made_files import LABELS, NOISE_MM, Made, draws, epoch_lines, is_held, main, run, solve
from tools.made.orbits import LIGHT

ASIDE = (1500, -2000, 1000)  # from the receiver to the station, m
CLOCK_MM = round(LIGHT)  # 1 ms, as light goes
OFFSET = -CLOCK_MM * UM_PER_M // 1000  # the receiver's clock less the station's, um
AGE = 30


def noises(seed, satellites, count):
    """The noise in mm of each satellite in each epoch, as the receiver has it without its outliers."""
    draw = draws(seed)
    for _ in range(3):
        draw(1000)
    for _ in satellites:
        draw(100)
    return [[draw(2 * NOISE_MM + 1) - NOISE_MM for _ in satellites] for _ in range(count)]


class MadeWithStation(Made):
    """The receiver, and the codes of the station."""

    def __init__(self, seed, count):
        super().__init__(seed, count)
        self.station = [axis + aside for axis, aside in zip(self.receiver, ASIDE)]
        self.seen = [
            [satellite.code_of(self.station, index, noise + CLOCK_MM) for satellite, noise in zip(self.satellites, row)]
            for index, row in enumerate(noises(seed, self.satellites, count))
        ]

    def texts(self, raised=()):
        """The texts of the files by their ending: `sta` is the station's."""
        texts = super().texts(raised)
        head = [text.ljust(60) + label for text, label in LABELS["obs"]]
        body = [line for k, codes in enumerate(self.seen) for line in epoch_lines(k, codes, ())]
        place = [1000 * axis for axis in self.station]
        toml = texts["toml"].replace("[-2500, 2500]", "[-20, 20]").replace("width = 1000", "width = 10")
        return {
            **texts,
            "toml": f"{toml}\n[station]\nage = {AGE}\nplace = {place}\n",
            "sta": "".join(line + "\n" for line in head + body),
        }


def solve_and_check(program, folder, seed, count):
    """Writes the files into a folder, runs the program on them, and gives the lines to print."""
    made = MadeWithStation(seed, count)
    station = ["--station", str(folder / "made.sta")]
    _, files = solve(program, folder, made.texts(), station)
    verdict = run([program, "check", *files, *station])
    lost = [epoch.index for epoch in epochs(files[-1]) if not is_held(epoch, made.receiver, OFFSET)]
    if lost:
        raise Error(f"these epochs don't hold the place: {lost}")
    return f"{verdict}the place is held in each epoch"


if __name__ == "__main__":
    run_tool(lambda: main(solve_and_check))
