"""Folders with the files of two stations, in which the tests run the workflow."""
import gzip
import os
import re
import shutil
import signal
import sqlite3
import subprocess
import sys
import tempfile
import time
from pathlib import Path

HERE = Path(__file__).resolve().parent
ROOT = HERE.parent
STATION = ROOT / "examples/station"
TABLES = ("network.sqlite", "network.html", "days/GEON/2005-04-02.csv", "days/UBX0/2008-05-26.csv")
LATEST = 600  # seconds that a run may take, on a busy machine too

SETTINGS = """\
[search]
centre = $centre
half = 1000000
outliers = 1
bisections = 16
width = 1000
max_age = 7200
[signal]
mode = "{}"
codes = {}
{}[bounds]
receiver = [-5000, 5000]
orbit_clock = [-4000, 4000]
ionosphere = {}
troposphere = [2000, 25000]
"""
STANDS = "[motion]\nspeed = 0\n"
CONFIG = """\
program: {program}
out: out
epochs: 4
part: 2
observations: data/{{station}}{{day:%Y%j}}.obs.gz
navigation: data/brdc{{day:%Y%j}}.nav
limits: [1000, 1000]
stations:
  UBX0: {{days: [2008-05-26], settings: data/single.toml, known: place, place: [-3869310.0, 3436566.0, 3717366.0]}}
  GEON: {{days: [2005-04-02], settings: data/dual.toml, place: [-3976219.0, 3382372.0, 3652511.0]}}
"""
CHAIN_CONFIG = """\
program: {program}
out: out
days: {{from: 2008-05-26, to: 2008-05-29}}
epochs: 4
part: 2
observations: data/{{station}}{{day:%Y%j}}.obs.gz
navigation: data/BRDC{{day:%Y%j}}.nav.gz
settings: data/settings.toml
known: place
limits: [50, 100]
stations:
  ALFA: {{place: [-3869310.320, 3436566.110, 3717366.550], chain: true, without: [2008-05-28]}}
  BETA: {{place: [-3900700.000, 3384100.000, 3732600.000], days: [2008-05-26]}}
"""
# A program that waits before it solves the part that the file `hold` names, while it does, and writes its
# number to `held`.
HELD = """\
#!/bin/sh
room=$(dirname "$0")
if {{ [ "$1" = solve ] || [ "$1" = track ]; }} && [ -e "$room/hold" ]; then
    case $2 in
        *"$(cat "$room/hold")".obs)
            echo $$ >"$room/held.next"
            mv "$room/held.next" "$room/held"
            while [ -e "$room/hold" ]; do sleep 0.1; done
            ;;
    esac
fi
exec '{program}' "$@"
"""


class Room:
    """A folder with the files of two stations, in which the workflow is run."""

    def __init__(self, program):
        self.program = program
        self.path = Path(tempfile.mkdtemp(prefix="workflow-"))
        self.out = self.path / "out"
        held = self.path / "program"
        held.write_text(HELD.format(program=self.program))
        held.chmod(0o755)
        self.fill(self.path / "data", held)

    def fill(self, data, program):
        """Makes the files and the configuration."""
        data.mkdir()
        for name, obs, nav in (
            ("UBX02008147", ROOT / "examples/receiver.obs", ROOT / "examples/receiver.nav"),
            ("GEON2005092", STATION / "receiver.obs", STATION / "receiver.nav"),
        ):
            (data / f"{name}.obs.gz").write_bytes(gzip.compress(obs.read_bytes(), mtime=0))
            shutil.copy(nav, data / f"brdc{name[4:]}.nav")
        (data / "single.toml").write_text(SETTINGS.format("single", '["C1C"]', STANDS, "[0, 25000]"))
        (data / "dual.toml").write_text(SETTINGS.format("dual", '["C1C", "C2W"]', "", "[-500, 500]"))
        self.configure(CONFIG.format(program=program))

    def configuration(self):
        """The configuration."""
        return (self.path / "config.yaml").read_text()

    def configure(self, text):
        """Writes the configuration."""
        (self.path / "config.yaml").write_text(text)

    def words(self, *more, jobs=4, profile="local"):
        """The words of a run."""
        head = ["snakemake", "-s", HERE / "Snakefile", "--configfile", "config.yaml"]
        return [*map(str, head), "--profile", str(HERE / profile), "--jobs", f"{jobs}", *more]

    def begin(self, *more, **ways):
        """Begins a run, whose words go to the file `said`."""
        with open(self.path / "said", "wb") as said:
            return subprocess.Popen(
                self.words(*more, **ways), cwd=self.path, stdout=said, stderr=subprocess.STDOUT, start_new_session=True
            )

    def said(self):
        """What the last run said."""
        return (self.path / "said").read_text(errors="replace")

    def lines(self):
        """What the last run said of jobs that weren't done."""
        return sorted(re.findall(r"^gpscover: not done: (.*)$", self.said(), re.MULTILINE))

    def run(self, *more, **ways):
        """Runs the workflow to its end. The status."""
        process = self.begin(*more, **ways)
        try:
            return process.wait(LATEST)
        except subprocess.TimeoutExpired:
            os.killpg(process.pid, signal.SIGKILL)
            raise

    def hold(self, part):
        """Has the program wait before it solves a part."""
        (self.path / "hold").write_text(part)

    def held(self):
        """The number of the program that waits, once it does."""
        return int(self.wait_for(self.path / "held").read_text())

    def wait_for(self, path):
        """A file, once it is there."""
        end = time.time() + LATEST
        while not path.exists():
            if time.time() > end:
                raise AssertionError(f"{path} doesn't come: {self.said()[-2000:]}")
            time.sleep(0.05)
        return path

    def free(self):
        """Lets the program go on."""
        for name in "hold", "held":
            (self.path / name).unlink(missing_ok=True)

    def tables(self):
        """The bytes of the tables, or None where one isn't there."""
        return {name: (self.out / name).read_bytes() if (self.out / name).exists() else None for name in TABLES}

    def verdicts(self):
        """The parts that have a verdict."""
        found = (self.out / "verdicts").glob("*/*/*.json")
        return sorted(str(path.relative_to(self.out / "verdicts"))[: -len(".json")] for path in found)

    def select(self, words):
        """What the database has."""
        base = sqlite3.connect(self.out / "network.sqlite")
        try:
            return base.execute(words).fetchall()
        finally:
            base.close()

    def audit(self, *more):
        """The status of the audit, and what it says."""
        words = [sys.executable, HERE / "audit.py", "out/network.sqlite", "out/logs", *more]
        ran = subprocess.run(words, cwd=self.path, capture_output=True, text=True)
        return ran.returncode, ran.stdout + ran.stderr

    def remove(self):
        """Removes the folder."""
        shutil.rmtree(self.path, ignore_errors=True)


class ChainRoom(Room):
    """One with the files of two made stations of four days, of which those of the first one are a chain."""

    def fill(self, data, program):
        words = [
            sys.executable,
            "-m",
            "tools.made.made_network",
            data,
            "--stations",
            "2",
            "--days",
            "4",
            "--epochs",
            "4",
        ]
        subprocess.run(words, cwd=ROOT, check=True)
        self.configure(CHAIN_CONFIG.format(program=program))
