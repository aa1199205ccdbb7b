"""Tests of chains: parts that go on from the log of the part before, their tables, and the audit of a whole chain."""
import json
import shutil
import sqlite3
import subprocess
from argparse import Namespace

import pytest

import audit
from epoch_table import ROW_HEAD, Piece, handed_on
from files import StepError, digest, unpacked
from gpscover.log import Box, epochs
from network import ConfigError, Network
from rooms import ChainRoom
from tables import refuse_other_log

CONFIG = {
    "epochs": 4,
    "part": 2,
    "days": ["2008-05-26", "2008-05-27", "2008-05-29"],
    "observations": "{station}{day:%j}.obs",
    "navigation": "nav",
    "settings": "set.toml",
    "chain": True,
    "stations": {"ALFA": None, "BETA": {"chain": False}},
}
ROWS = f"{','.join(ROW_HEAD)}\n"


@pytest.fixture(autouse=True)
def as_asked(request):
    """With --slurm only what is run on a Slurm."""
    if request.config.getoption("--slurm"):
        pytest.skip("tests on a Slurm are run alone")


class TestLinks:
    def links(self, config, station="ALFA"):
        """From which part each part of a station goes on."""
        network = Network(config)
        days = [day for name, day in network.station_days() if name == station]
        return [network.link(station, day, part) for day in days for part in network.parts]

    def test_each_part_goes_on_from_the_one_before_and_a_missing_day_begins_anew(self):
        first = [None, ("network", "2008-05-26", 1), ("network", "2008-05-26", 2), ("network", "2008-05-27", 1)]
        assert self.links(CONFIG) == [*first, None, ("network", "2008-05-29", 1)]
        assert self.links(CONFIG, "BETA") == [None] * 6
        gone = CONFIG | {"without": ["2008-05-27"]}
        assert self.links(gone) == [None, first[1], None, ("network", "2008-05-29", 1)]
        assert Network(gone).absent() == [("ALFA", "2008-05-27"), ("BETA", "2008-05-27")]

    def test_an_earlier_run_hands_on_its_last_part(self, room):
        earlier = str(room / "may")
        for part in (1, 2):
            (room / "may/verdicts/ALFA/2008-05-25").mkdir(parents=True, exist_ok=True)
            (room / f"may/verdicts/ALFA/2008-05-25/{part}.json").touch()
        assert self.links(CONFIG | {"earlier": earlier})[:2] == [
            (earlier, "2008-05-25", 2),
            ("network", "2008-05-26", 1),
        ]
        network = Network(CONFIG | {"earlier": earlier})
        log = "{out}/logs/{station}/{day}/{part}.log.zst"
        assert network.before(log, "ALFA", "2008-05-26", "1") == [f"{earlier}/logs/ALFA/2008-05-25/2.log.zst"]
        assert network.before(log, "ALFA", "2008-05-29", "1") == []

    def test_the_options_say_where_it_begins(self):
        network = Network(CONFIG)
        assert network.options("ALFA", "2008-05-26", 1) == "--from 1 --to 2 --behind none"
        assert network.options("ALFA", "2008-05-27", 1) == "--from 1 --to 2 --behind 2008-05-26/2"
        assert network.options("BETA", "2008-05-27", 2) == "--from 3"

    def test_what_waits_is_told_with_what_it_waits_for(self, room):
        network = Network(CONFIG | {"out": str(room)})
        assert list(network.waiting()) == [
            "ALFA 2008-05-26 part 1: 3 parts behind it in the chain wait for it",
            "ALFA 2008-05-29 part 1: 1 part behind it in the chain waits for it",
        ]
        (room / "verdicts/ALFA/2008-05-26").mkdir(parents=True)
        for part in (1, 2):
            (room / f"verdicts/ALFA/2008-05-26/{part}.json").touch()
        assert next(network.waiting()) == "ALFA 2008-05-27 part 1: 1 part behind it in the chain waits for it"

    def test_a_chain_wants_its_logs_and_memory_for_the_log_before(self):
        alone = CONFIG | {"chain": False}
        assert [Network(it).costs["solve"][1] for it in (alone, CONFIG, CONFIG | {"costs": {"solve": [9, 99]}})] == [
            500,
            1500,
            99,
        ]
        with pytest.raises(ConfigError, match="ALFA: chain: each day wants the log of the one before"):
            Network(CONFIG | {"keep": "checksum"})


class TestTables:
    def rows(self, room, *marks):
        """A table whose epochs have these marks, and began in epoch 7 of a day."""
        row = dict.fromkeys(ROW_HEAD, "") | {"began_day": "2008-05-25", "began_epoch": "7"}
        lines = [",".join((row | {"mark": mark}).values()) for mark in marks]
        (room / "rows.csv").write_text(ROWS + "".join(f"{line}\n" for line in lines))
        return handed_on(room / "rows.csv")

    def test_what_is_handed_on_is_by_the_last_paved_epoch(self, room):
        began = ("2008-05-25", 7)
        for marks, wanted in (
            (("ok",), began),
            (("ok", "reaches"), began),
            (("lost", "ok", "few"), began),
            (("ok", "lost"), None),
            (("ok", "lost", "few"), None),
            (("few", "few"), None),
            ((), None),
        ):
            assert self.rows(room, *marks) == wanted, marks

    def test_a_piece_goes_on_until_it_is_lost(self):
        class Epoch:
            index = 3

        piece = Piece("2008-05-27", ("2008-05-25", 7))
        assert piece.values(Epoch, False) == [1, "2008-05-25", 7]
        assert piece.values(Epoch, True) == [1, "2008-05-25", 7]
        assert piece.values(Epoch, False) == [2, "2008-05-27", 3]

    def test_a_part_that_went_on_from_another_log_is_refused(self):
        def verdict(day, log, after=None):
            files = {"log": {"sha256": log}} | ({"after": {"sha256": after}} if after else {})
            return {"station": "ALFA", "day": day, "part": 1, "files": files, "chain": {"behind": "2008-05-26/1"}}

        sums = {}
        refuse_other_log(verdict("2008-05-26", "a"), sums)
        refuse_other_log(verdict("2008-05-27", "b", "a"), sums)
        with pytest.raises(StepError, match="ALFA 2008-05-27 part 1: it goes on from a log that isn't the one of"):
            refuse_other_log(verdict("2008-05-27", "b", "c"), sums)


class TestAudit:
    PART = ("ALFA", "2024-02-01", 1)

    @pytest.mark.skipif(not shutil.which("zstd"), reason="zstd isn't there")
    def test_the_log_of_an_earlier_run_is_found_there(self, room):
        log = room / "january/ALFA/2024-01-31/1.log.zst"
        log.parent.mkdir(parents=True)
        (room / "log").write_text("gpscover 1\n")
        subprocess.run(["zstd", "-q", room / "log", "-o", log], check=True)
        files = {"after": ["2024-01-31/1", digest(room / "log")["sha256"], "", ""]}
        args = Namespace(logs=str(room / "february"), earlier=None)
        with pytest.raises(StepError, match="the log of 2024-01-31/1, from which it goes on, isn't there: --earlier"):
            audit.after_words(self.PART, files, args, str(room))
        args.earlier = str(room / "january")
        assert audit.after_words(self.PART, files, args, str(room)) == ["--after", f"{room}/after"]
        assert (room / "after").read_text() == "gpscover 1\n"
        files["after"][1] = "0"
        with pytest.raises(StepError, match="the log of 2024-01-31/1, from which it goes on, has another checksum"):
            audit.after_words(self.PART, files, args, str(room))
        assert audit.after_words(self.PART, {}, args, str(room)) == []

    def test_a_link_has_to_be_the_log_of_the_part_before(self):
        base = sqlite3.connect(":memory:")
        base.execute("CREATE TABLE files (station, day, part, role, sha256)")
        files = {"after": ["2024-01-31/1", "a", "", ""]}
        assert audit.behind_of(base, self.PART, {}) == ""
        assert audit.behind_of(base, self.PART, files) == " behind 2024-01-31/1"  # of an earlier run
        base.execute("INSERT INTO files VALUES ('ALFA', '2024-01-31', 1, 'log', 'b')")
        with pytest.raises(StepError, match="it goes on from a log that isn't the one of 2024-01-31/1"):
            audit.behind_of(base, self.PART, files)


@pytest.mark.skipif(not (shutil.which("snakemake") and shutil.which("zstd")), reason="snakemake or zstd isn't there")
class TestRuns:
    @pytest.fixture(autouse=True)
    def room_of_a_chain(self, program, request):
        self.network = ChainRoom(program)
        request.addfinalizer(self.network.remove)

    def log_of(self, part):
        """The epochs of a part's log, and the search box of its settings."""
        log = self.network.path / "whole.log"
        unpacked(self.network.out / f"logs/{part}.log.zst", log)
        search = json.loads((self.network.out / f"verdicts/{part}.json").read_text())["chain"]["search"]
        return list(epochs(log, Box(*search))), Box(*search)

    def test_a_chain_of_days_with_a_day_that_is_left_out(self):
        assert self.network.run() == 0, self.network.said()
        words = "SELECT DISTINCT station, day, part, began_day, began_epoch FROM epochs"
        assert self.network.select(words) == [
            ("ALFA", "2008-05-26", 1, "2008-05-26", 1),
            ("ALFA", "2008-05-26", 2, "2008-05-26", 1),
            ("ALFA", "2008-05-27", 1, "2008-05-26", 1),
            ("ALFA", "2008-05-27", 2, "2008-05-26", 1),
            ("ALFA", "2008-05-29", 1, "2008-05-29", 1),
            ("ALFA", "2008-05-29", 2, "2008-05-29", 1),
            ("BETA", "2008-05-26", 1, "2008-05-26", 1),
            ("BETA", "2008-05-26", 2, "2008-05-26", 3),
        ]
        assert self.network.select("SELECT * FROM absent") == [("ALFA", "2008-05-28")]
        # Every region holds its place, and none is told to reach the search box of a track that has gone on.
        assert self.network.select("SELECT DISTINCT mark, held FROM epochs") == [("ok", 1)]
        # The first epoch of a day that goes on is searched in less than the search box, that of a begin in all of it.
        for part, is_less in (("ALFA/2008-05-27/1", True), ("ALFA/2008-05-29/1", False), ("ALFA/2008-05-29/2", True)):
            (first, _), search = self.log_of(part)
            assert (first.root != search) == is_less, part
        page = (self.network.out / "network.html").read_text()
        assert "<td>2008-05-26 epoch 1: 2 days, 8 epochs</td><td>and 1 of one day</td>" in page
        assert "BETA" not in page.partition("Chains: ")[2].partition("</table>")[0]
        status, said = self.network.audit("--chain", "ALFA")
        assert (status, said.count(": yes ")) == (0, 6), said
        assert "ALFA 2008-05-26 part 1: yes" in said and "ALFA 2008-05-27 part 1 behind 2008-05-26/2: yes" in said
        assert self.network.audit("--chain", "NONE") == (1, "audit.py: no part of NONE is in the database\n")
        self.a_changed_log_of_the_day_before_is_put_aside()
        self.a_log_that_is_exchanged_is_told_by_the_audit()

    def a_changed_log_of_the_day_before_is_put_aside(self):
        """A part that is made again goes on from the checked log alone; the next run makes both again, to the byte."""
        whole = self.network.tables()["network.sqlite"]
        log = self.network.out / "logs/ALFA/2008-05-26/2.log.zst"
        packed = bytearray(log.read_bytes())
        packed[len(packed) // 2] ^= 1
        log.write_bytes(packed)
        (self.network.out / "rows/ALFA/2008-05-26/2.csv").touch()
        (self.network.out / "verdicts/ALFA/2008-05-27/1.json").unlink()
        assert self.network.run() == 1
        assert "isn't accepted" in self.network.said() and (self.network.out / "refused").exists()
        assert self.network.run() == 0, self.network.said()
        assert self.network.tables()["network.sqlite"] == whole

    def a_log_that_is_exchanged_is_told_by_the_audit(self):
        """Each log of a chain is checked behind the log before it, whose checksum the database has."""
        logs = self.network.out / "logs/ALFA"
        shutil.copy(logs / "2008-05-29/1.log.zst", logs / "2008-05-26/1.log.zst")
        status, said = self.network.audit("--chain", "ALFA")
        lines = said.splitlines()
        assert (status, len(lines)) == (1, 6)
        assert "ALFA 2008-05-26 part 1: log has another checksum" in lines[0]
        assert "the log of 2008-05-26/1, from which it goes on, has another checksum" in lines[1]
        assert lines[2].startswith("ALFA 2008-05-27 part 1 behind 2008-05-26/2: yes ")

    def test_a_day_that_fails_holds_up_those_behind_it_alone(self):
        data = self.network.path / "data"
        (data / "BRDC2008147.nav.gz").rename(data / "away")
        assert self.network.run() == 1
        wait = "ALFA 2008-05-26 part 1: 3 parts behind it in the chain wait for it"
        assert wait in self.network.lines()
        assert self.network.verdicts() == ["ALFA/2008-05-29/1", "ALFA/2008-05-29/2"]

    def test_what_no_chain_can_be_of(self):
        settings = self.network.path / "data/settings.toml"
        settings.write_text(settings.read_text().replace("[motion]\nspeed = 0\n", ""))
        assert self.network.run() == 1
        told = "the settings have no table [motion], so no day can go on from another"
        assert f"ALFA 2008-05-26 part 1: solve: chain: {told}" in self.network.lines()
