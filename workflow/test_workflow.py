"""Tests of the workflow.

Two recorded stations with a day of two parts each, which are tracks of one of them, are solved, checked and tabled
on four jobs; then jobs are killed, files changed or taken away, and a disk filled. Each time the run has to end with
a line that names station, day and part, the other parts have to be done, and the next run has to make the same tables to the
byte. With --slurm the same is run on a Slurm, with a node that is drained and one that is lost:
scripts/slurm_here.sh --nodes 2 -- python3 -m pytest workflow --slurm --program=PROGRAM.
"""
import gzip
import os
import re
import shutil
import signal
import sqlite3
import subprocess
import sys
import tempfile
import time
from pathlib import Path

import pytest

from gpscover.log import epochs as epochs_of
from rooms import HERE, LATEST, ROOT, STATION, TABLES, ChainRoom, Room
from tools.made import made_network

PARTS = ("GEON/2005-04-02/1", "GEON/2005-04-02/2", "UBX0/2008-05-26/1", "UBX0/2008-05-26/2")

pytestmark = pytest.mark.skipif(
    not (shutil.which("snakemake") and shutil.which("zstd")), reason="snakemake or zstd isn't there"
)


@pytest.fixture(autouse=True)
def as_asked(request):
    """With --slurm what is run on a Slurm, and without it the rest."""
    if request.config.getoption("--slurm") != (request.cls is TestOnSlurm):
        pytest.skip("tests on a Slurm are run by hand, with --slurm, and alone")


@pytest.fixture(scope="module")
def whole(program):
    """The tables that an undisturbed run on four jobs makes."""
    room = Room(program)
    try:
        assert room.run() == 0, room.said()
        tables = room.tables()
        assert None not in tables.values()
        return tables
    finally:
        room.remove()


def parent(pid):
    """The number of a process's parent."""
    return int(Path(f"/proc/{pid}/stat").read_text().rsplit(")", 1)[1].split()[1])


def is_alive(pid):
    """Whether a process runs: one that has ended may wait for who began it."""
    try:
        return Path(f"/proc/{pid}/stat").read_text().rsplit(")", 1)[1].split()[0] != "Z"
    except OSError:
        return False


def steps_of(said):
    """How often each rule was run."""
    return sorted(re.findall(r"^(?:local)?rule (\w+):", said, re.MULTILINE))


class Base:
    """A room for each test, and the tables that an undisturbed run on four jobs makes."""

    @pytest.fixture(autouse=True)
    def room_of_two_stations(self, program, whole, request):
        self.whole, self.at_end = whole, request.addfinalizer
        self.room = Room(program)
        self.at_end(self.room.remove)

    def is_repaired(self, **ways):
        """The next run ends well and makes the tables of the undisturbed one; the run behind it has nothing to do."""
        assert self.room.run(**ways) == 0, self.room.said()
        assert self.room.tables() == self.whole
        assert list((self.room.out / "notes").glob("*/*/*.*")) == []
        assert list((self.room.out / "tmp").glob("*")) == []

    def has_nothing_to_do(self):
        """The next run does nothing."""
        assert self.room.run() == 0, self.room.said()
        assert "Nothing to be done" in self.room.said()


class TestWhole(Base):
    def test_one_job_and_four_make_the_same_tables_and_a_second_run_does_nothing(self):
        self.is_repaired(jobs=1)
        self.has_nothing_to_do()
        (self.room.out / "logs/UBX0/2008-05-26/2.log.zst").unlink()
        self.is_repaired()
        steps = ["all", "check", "compress", "database", "day", "page", "rows", "solve", "unpack"]
        assert steps_of(self.room.said()) == steps

    def test_tables_have_what_the_logs_have(self):
        with tempfile.NamedTemporaryFile() as file:
            Path(file.name).write_bytes(self.whole["network.sqlite"])
            base = sqlite3.connect(file.name)
            epochs = base.execute("SELECT station, part, epoch, satellites, mark FROM epochs").fetchall()
            # Two parts of two epochs each; the satellites of the first are 8 and 9, as the files have them.
            wanted = [(station, (k + 1) // 2, k) for station in ("GEON", "UBX0") for k in range(1, 5)]
            assert [row[:3] for row in epochs] == wanted
            assert {row[:1] + row[3:4] for row in epochs if row[2] == 1} == {("GEON", 8), ("UBX0", 9)}
            words = "SELECT command, name, verdict LIKE 'yes %' FROM files WHERE role = 'log'"
            options = ("--from 1 --to 2", "--from 3")
            said = [(command, option, 1) for command in ("solve", "track") for option in options]
            assert base.execute(words).fetchall() == said
            # Each part of a track is a piece. Only what has a known place is judged by it.
            words = "SELECT station, piece, held, hpl_m > 0, available, misleading, certified FROM epochs"
            wanted = {("GEON", None, None, None, 1, None, 0), ("UBX0", 1, 1, 1, 1, 0, 0)}
            assert set(base.execute(words)) == wanted
            assert base.execute("SELECT * FROM limits").fetchall() == [(1000, 1000)]
            base.close()

    def test_other_ways_of_a_configuration(self):
        pytest.importorskip("plotly")  # for the pages of the days, which are made of logs that aren't kept
        config = self.room.configuration().replace("[2008-05-26]", "[2008-05-26, 2008-05-27]")
        config = config.replace("settings: data/single.toml", 'settings: data/single.toml, bounds: "single --zenith"')
        self.room.configure(config + "absent: leave\nkeep: checksum\npages: true\n")
        assert self.room.run() == 0, self.room.said()
        assert "gpscover: UBX0 2008-05-27: no observation file, left out" in self.room.said()
        base = sqlite3.connect(self.room.out / "network.sqlite")
        assert base.execute("SELECT * FROM absent").fetchall() == [("UBX0", "2008-05-27")]
        base.close()
        assert list((self.room.out / "logs").rglob("*.zst")) == []
        assert len(list((self.room.out / "pages").rglob("*.html"))) == 2
        self.has_nothing_to_do()
        text = (self.room.out / "settings/UBX0/2008-05-26.toml").read_text()
        assert "centre = [-3869310000, 3436566000, 3717366000]\n" in text
        assert "zenith = [1911, 2703]\n" in text
        # G26 stands 5.2 to 5.3 degrees high, as the example's settings say; all else of its bounds is by
        # elevation.
        assert re.search(r"G26 = \[.*\]  # 5\.\d to 5\.\d degrees", text)
        assert text.count("[bounds]") == 1

    def test_a_station_beside_a_receiver(self):
        data = self.room.path / "data"
        observations = (STATION / "station.obs").read_bytes()
        (data / "STAT2005092.obs.gz").write_bytes(gzip.compress(observations, mtime=0))
        text = (STATION / "settings.toml").read_text()
        for key, value in (("centre", "$centre"), ("place", "$station"), ("bisections", "16")):
            text = re.sub(f"(?m)^{key} = .*", f"{key} = {value}", text)
        (data / "pair.toml").write_text(text)
        config = self.room.configuration().replace("settings: data/dual.toml", "beside: STAT, settings: data/pair.toml")
        place = "[-3978241.958, 3382840.234, 3649900.853]"
        self.room.configure(f"{config}  STAT: {{days: [2005-04-02], settings: data/dual.toml, place: {place}}}\n")
        assert self.room.run() == 0, self.room.said()
        base = sqlite3.connect(self.room.out / "network.sqlite")
        words = "SELECT station, role FROM files WHERE role IN ('beside', 'station')"
        assert sorted(base.execute(words)) == [("GEON", "beside")] * 2 + [("GEON", "station")] * 2
        widest = "SELECT max(up_m) FROM epochs WHERE station = 'GEON'"
        assert base.execute(widest).fetchone()[0] < 60
        base.close()
        assert (
            "place = [-3978241958, 3382840234, 3649900853]\n"
            in (self.room.out / "settings/GEON/2005-04-02.toml").read_text()
        )
        status, said = self.room.audit("--sample", "9")
        assert (status, said.count(": yes ")) == (0, 6), said

    def test_a_wrong_configuration(self):
        config = self.room.configuration()
        for wrong, said in (
            (config.replace("part: 2", "part: 0"), "part: a whole number from 1 to 200000 is needed, not 0"),
            (config.replace("{day:%Y%j}.nav", "{date}.nav"), "the pattern 'data/brdc{date}.nav' can't be filled"),
            (config.replace("[2008-05-26]", "[26.5.2008]"), "UBX0: days: '26.5.2008' is no date"),
            (config.replace("settings: data/single.toml, ", ""), "stations: UBX0 has no settings"),
            (
                config.replace("settings: data/single", "beside: SOME, settings: data/single"),
                "UBX0: beside: 'SOME' is no other station",
            ),
            (
                config.replace("settings: data/single", "beside: GEON, bounds: x, settings: data/single"),
                "UBX0: bounds: those of differences stand in the settings",
            ),
            (config.replace("[1000, 1000]", "200"), "limits: [along the ground, up] in metres is needed, not 200"),
            (config + "pages: maybe\n", "pages: false or true is needed, not 'maybe'"),
            (config.replace(", place: [-3869310.0", ", elsewhere: [0"), "UBX0: known: the station has no place"),
            (config + "chain: true\nkeep: checksum\n", "GEON: chain: each day wants the log of the one before"),
            (config + "chain: days\n", "chain: false or true is needed, not 'days'"),
        ):
            self.room.configure(wrong)
            assert self.room.run() != 0
            assert said in self.room.said()


class TestKilled(Base):
    def test_a_program_a_step_and_an_engine_that_are_killed(self):
        self.room.hold(PARTS[1])
        process = self.room.begin()
        os.kill(self.room.held(), signal.SIGKILL)
        assert process.wait(LATEST) == 1
        self.is_told("GEON 2005-04-02 part 2: solve: solve: killed by signal 9, without a word")

        process = self.room.begin()
        program = self.room.held()
        os.kill(parent(program), signal.SIGKILL)
        os.kill(program, signal.SIGKILL)
        assert process.wait(LATEST) == 1
        self.is_told("GEON 2005-04-02 part 2: solve: it didn't end: killed, or no room for a note?")

        process = self.room.begin()
        program = self.room.held()
        os.killpg(process.pid, signal.SIGKILL)
        process.wait()
        if is_alive(program):
            os.kill(program, signal.SIGKILL)
        self.room.free()
        assert self.room.run("--unlock") == 0, self.room.said()
        self.is_repaired()
        assert steps_of(self.room.said()).count("solve") == 1

    def is_told(self, wanted):
        """One line is of the part, the other parts have verdicts, and the table of the other day is there."""
        assert self.room.lines() == [wanted]
        assert self.room.verdicts() == [part for part in PARTS if part != PARTS[1]]
        assert [name for name, table in self.room.tables().items() if table is not None] == [TABLES[3]]
        (self.room.path / "held").unlink()


class TestChanged(Base):
    def test_a_log_and_an_observation_that_are_changed(self):
        assert self.room.run("--until", "solve", "--notemp") == 0, self.room.said()
        log = self.room.out / f"solved/{PARTS[1]}.log"
        text = log.read_text()
        place = text.index("\nroot ") + 6
        log.write_text(f"{text[:place]}1{text[place + 1:]}")  # the low end of x had a minus there
        self.is_refused(PARTS[1], r"check: the log isn't accepted: .*")
        assert self.room.verdicts() == [part for part in PARTS if part != PARTS[1]]
        self.is_repaired()

        log = self.room.out / f"logs/{PARTS[2]}.log.zst"
        packed = bytearray(log.read_bytes())
        packed[len(packed) // 2] ^= 1
        log.write_bytes(packed)
        self.is_refused(PARTS[2], "rows: the log isn't accepted: .*", "log.zst")
        self.is_repaired()
        self.has_nothing_to_do()

        path = self.room.path / "data/GEON2005092.obs.gz"
        whole = path.read_bytes()
        text = gzip.decompress(whole).decode()
        path.write_bytes(gzip.compress(text.replace("G03  24767686.375", "G03  24767687.375").encode(), mtime=0))
        assert self.room.run() == 0, self.room.said()
        assert steps_of(self.room.said()).count("solve") == 2
        assert self.room.tables()["network.sqlite"] != self.whole["network.sqlite"]
        path.write_bytes(whole)
        self.is_repaired()

    def is_refused(self, part, why, kind="log"):
        """The next run fails; one line is of this part, and its log is kept aside."""
        assert self.room.run() == 1
        (line,) = self.room.lines()
        name = part.replace("/", " ", 1).replace("/", " part ")
        assert re.search(f"^{name}: {why}; it is kept as out/refused/{part}.{kind}$", line)
        assert (self.room.out / f"refused/{part}.{kind}").exists()


class TestMissing(Base):
    def test_a_navigation_day_and_the_program_that_undoes_hatanaka(self):
        path = self.room.path / "data/brdc2008147.nav"
        whole = path.read_bytes()
        path.unlink()
        assert self.room.run() == 1
        lines = [f"UBX0 2008-05-26 part {part}: unpack: data/brdc2008147.nav isn't there" for part in (1, 2)]
        assert self.room.lines() == lines
        assert self.room.tables()[TABLES[2]] == self.whole[TABLES[2]]
        path.write_bytes(whole)

        path = self.room.path / "data/GEON2005092.obs.gz"
        whole = path.read_bytes()
        head = b"1.0                 COMPACT RINEX FORMAT                    CRINEX VERS   / TYPE\n"
        path.write_bytes(gzip.compress(head + gzip.decompress(whole), mtime=0))
        if shutil.which("crx2rnx") is None and shutil.which("CRX2RNX") is None:
            assert self.room.run() == 1
            why = "data/GEON2005092.obs.gz has Hatanaka's compression, and crx2rnx isn't on the path"
            assert [line.split(":")[1:3] for line in self.room.lines()] == [[" unpack", f" {why}"]] * 2
        # In its place one that takes off the line above.
        tools = self.room.path / "tools"
        tools.mkdir()
        (tools / "crx2rnx").write_text("#!/bin/sh\nexec tail -n +2\n")
        (tools / "crx2rnx").chmod(0o755)
        before = os.environ["PATH"]
        os.environ["PATH"] = f"{tools}:{before}"
        self.at_end(lambda: os.environ.__setitem__("PATH", before))
        assert self.room.run() == 0, self.room.said()
        for name in TABLES[2:]:
            assert self.room.tables()[name] == self.whole[name]
        path.write_bytes(whole)
        self.is_repaired()
        path.unlink()  # it is put away when its day is done
        self.has_nothing_to_do()


class TestFullDisk(Base):
    def test_a_full_disk(self):
        disk = self.room.out
        disk.mkdir()
        words = ["mount", "-t", "tmpfs", "-o", "size=192k", "workflow", str(disk)]
        if os.geteuid() != 0 or subprocess.run(words, capture_output=True).returncode != 0:
            pytest.skip("only root can make a small disk")
        self.at_end(lambda: subprocess.run(["umount", str(disk)]))
        assert self.room.run() == 1
        name = r"\w{4} \d{4}-\d\d-\d\d part \d"
        assert re.search(f"gpscover: {name}: solve: (solve|track): status 5, log fault", self.room.said())
        for line in self.room.lines():
            assert re.search(rf"^{name}: \w+: ", line)
        assert len(self.room.verdicts()) < len(PARTS)
        subprocess.run(["mount", "-o", "remount,size=16m", str(disk)], check=True)
        self.is_repaired()


class TestMade:
    def test_regions_of_a_made_network_hold_its_places(self, program):
        with tempfile.TemporaryDirectory() as path:
            folder = Path(path)
            words = [sys.executable, "-m", "tools.made.made_network", folder, "--epochs", "2"]
            subprocess.run(words, cwd=ROOT, check=True)
            text = (folder / "settings.toml").read_text()
            for packed in sorted(folder.glob("*.obs.gz")):
                station, day = packed.name[:4], packed.name[4:11]
                place = [round(at * 1000) for at in made_network.PLACES[station]]
                (folder / "set.toml").write_text(text.replace("$centre", str(place)))
                for source, name in (packed, "obs"), (folder / f"BRDC{day}.nav.gz", "nav"):
                    (folder / name).write_bytes(gzip.decompress(source.read_bytes()))
                files = [folder / name for name in ("obs", "nav", "set.toml", "log")]
                subprocess.run([program, "solve", *files], check=True, stdout=subprocess.DEVNULL)
                found = list(epochs_of(folder / "log"))
                held = [self.holds(epoch, [at * 1000 for at in place]) for epoch in found]
                assert held == [True, True], f"{station} {day}"

    def holds(self, epoch, place):
        """Whether a box of the epoch has the place in um."""
        return any(all(it.box[k] <= place[k] <= it.box[k + 3] for k in range(3)) for it in epoch.kept)


# ---- on a Slurm


def variable(pid, name):
    """The value of a variable in the environment of a process."""
    pairs = Path(f"/proc/{pid}/environ").read_bytes().decode().split("\0")
    return next(pair.split("=", 1)[1] for pair in pairs if pair.startswith(f"{name}="))


class TestOnSlurm(Base):
    @pytest.fixture(autouse=True)
    def quick_questions(self, monkeypatch):
        monkeypatch.setenv("CI", "true")  # Snakemake then asks once a second how jobs are, in place of every ten

    def run_with(self, part, disturb):
        """Begins a run on Slurm, disturbs it while a part's program waits, lets it go on, and waits for its end."""
        self.room.hold(part)
        process = self.room.begin(profile="slurm", jobs=8)
        program = self.room.held()
        disturb(program)
        return process

    def node_of(self, program):
        """The node on which a program runs."""
        return variable(program, "SLURMD_NODENAME")

    def set_state(self, node, state):
        """Has the node in another state. It may have gone back to work by itself."""
        words = ["scontrol", "update", f"nodename={node}", f"state={state}", "reason=test"]
        subprocess.run(words, check=state != "resume")

    def test_the_same_tables(self):
        self.is_repaired(profile="slurm", jobs=8)
        self.has_nothing_to_do()

    def test_the_same_tables_of_a_chain(self):
        tables = []
        for ways in ({}, {"profile": "slurm"}):
            chain = ChainRoom(self.room.program)
            self.at_end(chain.remove)
            assert chain.run(**ways) == 0, chain.said()
            tables.append([(chain.out / name).read_bytes() for name in TABLES[:2]])
        assert tables[0] == tables[1]

    def test_a_node_that_is_drained_while_it_works(self):
        nodes = []

        def disturb(program):
            nodes.append(self.node_of(program))
            self.set_state(nodes[0], "drain")
            for part in PARTS:
                if part != PARTS[0]:
                    self.room.wait_for(self.room.out / f"verdicts/{part}.json")
            assert PARTS[0] not in self.room.verdicts()
            self.room.free()

        # What works on the node ends there, and all else is done by the other one.
        process = self.run_with(PARTS[0], disturb)
        assert process.wait(3 * LATEST) == 0, self.room.said()
        assert self.room.tables() == self.whole
        self.set_state(nodes[0], "resume")

    def test_a_node_that_is_lost_while_it_works(self):
        nodes = []

        def disturb(program):
            nodes.append(self.node_of(program))
            self.room.free()
            self.set_state(nodes[0], "down")

        process = self.run_with(PARTS[1], disturb)
        assert process.wait(3 * LATEST) == 0, self.room.said()
        assert self.room.tables() == self.whole
        self.set_state(nodes[0], "resume")

    def test_a_job_that_is_cancelled_twice(self):
        self.room.hold(PARTS[3])
        process = self.room.begin(profile="slurm", jobs=8)
        for _ in range(2):
            program = self.room.held()
            (self.room.path / "held").unlink()
            subprocess.run(["scancel", variable(program, "SLURM_JOB_ID")], check=True)
        assert process.wait(3 * LATEST) == 1
        (line,) = self.room.lines()
        assert re.search("^UBX0 2008-05-26 part 2: solve: ", line)
        assert self.room.verdicts() == list(PARTS[:3])
        (self.room.path / "hold").unlink()
        self.is_repaired(profile="slurm", jobs=8)
