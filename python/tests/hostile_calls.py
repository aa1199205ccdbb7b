"""Calls every command of gpslog with hostile files and words, in one process.

usage: PYTHONPATH=python/src python3 python/tests/hostile_calls.py [CALLS] [SEED]

Files are cut, changed in some bytes, not UTF-8, huge in a number, folders or not there. A call is
to end with 0, 2 or 3, or with 1 and one line on standard error. The last line is `hostile calls: N
passed, M failed`; a call that fails is printed with its traceback. Exit status: 0, or 1 where one
failed.
"""

import os
import random
import sys
import tempfile
import traceback
from pathlib import Path

from made_logs import EXAMPLES, HEAD, PAVED, RECORDED, TUBE, WITHIN, ended

from gpscover import bounded, bounds, evidence, export, files, known, observed, pictures, risk, shapes, summary
from gpscover import suspects, zones
from gpscover.settings import Settings, SettingsError

WORDS = ("nan", "inf", "-1", "1e400", "9" * 5000, "", "x", "\u0661", "\0".replace("\0", "%"), "0/0")
ZONES = (
    "gpszones 2\nzone a 0 0 0 1 1 1\nprism b 1\nside 0 1 0 0\nreach c 1 0 0\ngroup d 2 1\nside 0 1 0 0\nside 1 0 0 0\n"
)
KML = "<kml><LineString><coordinates>138,35 138.01,35</coordinates></LineString></kml>"
JSON = '{"type": "Polygon", "coordinates": [[[8, 47], [8.01, 47], [8.01, 47.01]]]}'
BOUNDED = (
    HEAD.replace("gpscover 1", "gpscover 4")
    + WITHIN
    + "".join(
        f"bound {way} {most} 1\nby 0 0 0 0 0 0 0 0 0 0 0\n"
        for way, most in (
            ("1 0 0", 6378140000000),
            ("-1 0 0", -6378130000000),
            *((way, 40000000) for way in ("0 1 0", "0 -1 0", "0 0 1", "0 0 -1", "0 1 1")),
        )
    )
)
GOOD = {
    "log": [(HEAD + text).encode() for text in (PAVED, WITHIN, TUBE, "")]
    + [(EXAMPLES / "renewed-rows.log").read_bytes(), BOUNDED.encode()],
    "places": [(RECORDED / "ubx_2008.places").read_bytes()[:2000], b"895816769.999 6378137 25 5\n"],
    "zones": [ZONES.encode()],
    "shape": [KML.encode(), JSON.encode(), b"47 8\n47 8.01\n47.01 8.01\n"],
    "obs": [(EXAMPLES / "receiver.obs").read_bytes()[:4000]],
    "settings": [(EXAMPLES / name).read_bytes() for name in ("settings.toml", "station/settings.toml")],
}


def spoilt(draw, data):
    """Bytes that were cut, changed or filled."""
    way = draw.randrange(7)
    at = draw.randrange(len(data) + 1)
    if way == 0:
        return data[:at]
    if way == 1:
        return data[:at] + bytes([draw.randrange(256)]) + data[at + 1 :]
    if way == 2:
        return data[:at] + draw.choice(WORDS).encode() + data[at:]
    if way == 3:
        lines = data.split(b"\n")
        draw.shuffle(lines)
        return b"\n".join(lines)
    if way == 4:
        return data.replace(b"\n", b"\r\n")
    if way == 5:
        return data.replace(draw.choice(b"0123456789").to_bytes(1, "big"), b"9" * 400, 1)
    return data


def path_of(draw, room, kind):
    """The path of a hostile file of a kind."""
    if draw.random() < 0.05:
        return draw.choice([str(room), f"{room}/none", "/dev/null", f"{room}/{'a' * 300}"])
    path = room / f"{kind}.{draw.choice(['log', 'gz', 'kml', 'json'])}"
    path.write_bytes(spoilt(draw, draw.choice(GOOD[kind])))
    return str(path)


def number(draw):
    """A word that may be a number."""
    return draw.choice([*WORDS, "3", "47", "8.5", "1e-3", "6378137"])


def call_of(draw, room):
    """A command and its words."""
    log, places = path_of(draw, room, "log"), path_of(draw, room, "places")
    zone, shape = path_of(draw, room, "zones"), path_of(draw, room, "shape")
    out = str(room / f"out.{draw.choice(['csv', 'kml', 'geojson', 'x'])}")
    purpose = draw.choice(["outside", "inside"])
    return draw.choice(
        [
            (summary, log, draw.choice(["--csv", "--box", "--strict"])),
            (summary, log, "--csv", "--places", places),
            (summary, log, "--places", places, "--azimuth", number(draw)),
            (summary, log, "--kml", out),
            (summary, log, "--obs", path_of(draw, room, "obs")),
            (summary, log, "--obs", path_of(draw, room, "obs"), "--settings", path_of(draw, room, "settings")),
            (known, log, places, "--limit", number(draw), number(draw)),
            (known, log, places, "--along", places),
            (observed, log, "--places", places),
            (observed, log, "--place", number(draw), "1", "0", "--csv"),
            (suspects, "log", log),
            (suspects, "open", log, log, path_of(draw, room, "settings"), "--program", "/nonexistent"),
            (bounded, log, out),
            (bounded, log, out, "--directions", draw.choice(["4", "16", number(draw)])),
            (bounds, log, number(draw), "0", "0", "single", "--mask", number(draw)),
            (bounds, log, number(draw), "1", "0", "dual", "--more", number(draw))
            + ("--station", path_of(draw, room, "settings")),
            (risk, "--log", log, "--p", number(draw)),
            (risk, "--p", number(draw), "--satellites", number(draw)),
            (zones, zone, log),
            (shapes, "--for", purpose, "--area", f"a,{shape},{number(draw)},500"),
            (shapes, "--for", purpose, "--lane", f"a,{shape},20,0,{number(draw)}"),
            (shapes, "--for", purpose, "--reported", f"a,{places},{log},5,{number(draw)}"),
            (export, log, out),
            (files, path_of(draw, room, "obs"), log, "--to", str(room / "to")),
            (evidence, "check", str(room), "--program", "/nonexistent"),
            (pictures, "zones", log, out, "--zones", zone),
        ]
    )


def fault(module, words):
    """What is wrong with how a call ends, or None."""
    try:
        status, _, err = ended(module, *words)
    except Exception:
        return traceback.format_exc()
    if status in (0, 2, 3) or (status == 1 and (err.count("\n") == 1 or module is evidence)):
        return None
    return f"status {status}: {err}"


def settings_fault(path):
    """The same of settings that are read."""
    try:
        Settings.read(path)
    except (SettingsError, OSError):
        return None
    except Exception:
        return traceback.format_exc()
    return None


def main():
    calls = int(sys.argv[1]) if len(sys.argv) > 1 else 10_000
    draw = random.Random(int(sys.argv[2]) if len(sys.argv) > 2 else 1)
    failed = 0
    with tempfile.TemporaryDirectory() as folder:
        room = Path(folder)
        os.chdir(room)
        for _ in range(calls):
            module, *words = call_of(draw, room)
            found = fault(module, words) or settings_fault(path_of(draw, room, "settings"))
            if found:
                failed += 1
                print(module.__name__, words, found, sep="\n")
    print(f"hostile calls: {calls - failed} passed, {failed} failed")
    return 1 if failed else 0


if __name__ == "__main__":
    sys.exit(main())
