"""What tests of tools and of the built program share: how a tool ends, the usage and limits, and the files of a day."""
import contextlib
import io
import sys
from unittest import mock

from gpscover import command

USAGE = (
    b"usage: gpscover judge LOG, pave ROWS LOG, "
    b"solve or check OBS NAV SETTINGS LOG, make SEED EPOCHS, "
    b"track or retrack OBS NAV SETTINGS LOG, "
    b"guard OBS NAV SETTINGS ZONES LOG\n"
)
MIB = 1 << 20
# The most bytes of each kind of file.
SETTINGS, INPUT, LOG = 64 << 10, 256 * MIB, 512 * MIB


def day(lines):
    """A mixed observation file of one day, every 30 s, with six GPS satellites and others."""
    codes = [b"G%02d  22000000.000\n" % number for number in range(1, 7)]
    others = [b"R%02d  22000000.000\n" % number for number in range(1, 21)]
    sats = b"".join(codes + others)
    epochs = []
    for k in range(2880):
        minutes, seconds = divmod(30 * k, 60)
        hour, minute = divmod(minutes, 60)
        epochs.append(b"> 2024 01 07 %02d %02d %2d.0000000  0 26\n" % (hour, minute, seconds) + sats)
    return b"".join([line.ljust(60) + label + b"\n" for line, label in lines] + epochs)


# One record, of a satellite that stands still; five lines of zeros follow the first four.
ZEROS = b"    " + b" 0.000000000000D+00" * 4 + b"\n"
RECORD = (
    b"G%02d 2024 01 07 00 00 00"
    + b" 0.000000000000D+00" * 3
    + b"\n"
    + ZEROS
    + b"    "
    + b" 0.000000000000D+00" * 3
    + b" 5.200000000000D+03\n"
    + ZEROS * 5
)
DAY = {
    "day.obs": day(
        [
            (b"     3.05           OBSERVATION DATA    M", b"RINEX VERSION / TYPE"),
            (b"G    1 C1C", b"SYS / # / OBS TYPES"),
            (b"R    1 C1C", b"SYS / # / OBS TYPES"),
            (b"  2024     1     7     0     0    0.0000000     GPS", b"TIME OF FIRST OBS"),
            (b"", b"END OF HEADER"),
        ]
    ),
    "day.nav": b"     3.05           N: GNSS NAV DATA    G".ljust(60)
    + b"RINEX VERSION / TYPE\n"
    + b"".ljust(60)
    + b"END OF HEADER\n"
    + b"".join(RECORD % number for number in range(1, 7)),
    "day.toml": b"""[search]
centre = [6378137000, 0, 0]
half = 200000
outliers = 1
bisections = 4096
width = 1000
max_age = 7200
[signal]
mode = "single"
codes = ["C1C"]
[bounds]
receiver = [-3000, 3000]
orbit_clock = [-3000, 3000]
ionosphere = [0, 20000]
troposphere = [2000, 25000]
""",
}


def ended(tool, *words):
    """The status with which a tool ends on these words, and what it prints on both streams. What it doesn't tell by a line
    of its own is raised."""
    out, err = io.StringIO(), io.StringIO()
    name = tool.__name__.rpartition(".")[2]
    with mock.patch.object(sys, "argv", [f"{name}.py", *map(str, words)]), mock.patch("gpscover.command.drop_output"):
        with contextlib.redirect_stdout(out), contextlib.redirect_stderr(err):
            try:
                command.run_tool(tool.main)
            except SystemExit as end:
                return end.code or 0, out.getvalue(), err.getvalue()
