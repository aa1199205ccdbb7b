"""Tests of what a network knows: tracks and their pieces, known places, limits, suspects, the page, and the template."""
import re
import shutil
import subprocess
from argparse import Namespace

import pytest

import report
import tables
from epoch_table import ROW_HEAD, Piece, epoch_lines, handed_on
from files import write_json
from gpscover.integrity import Limits
from made_logs import HEAD, LOST, PAVED, TUBE, WITHIN
from rooms import HERE, ROOT, Room

needs_engine = pytest.mark.skipif(
    not (shutil.which("snakemake") and shutil.which("zstd")), reason="snakemake or zstd isn't there"
)
FEW = "few 4 895816772999000000000 3\n"
NUMBER = {name: k for k, name in enumerate(ROW_HEAD[3:])}
# The middle of the box that WITHIN keeps, in m; and a point 3 m above it, which the box of 4 m doesn't hold.
MIDDLE, ABOVE = (6378137.0, 25.0, 0.0), (6378140.0, 25.0, 0.0)


@pytest.fixture(autouse=True)
def as_asked(request):
    """With --slurm only what is run on a Slurm."""
    if request.config.getoption("--slurm"):
        pytest.skip("tests on a Slurm are run alone")


DAY = "2024-01-01"


def lines_of(room, text, is_track=False, place=None, limits=None, began=None, search=None):
    """The lines of the table of a log's text."""
    path = room / "made.log"
    path.write_text(HEAD + text, newline="\n")
    return list(epoch_lines(path, Piece(DAY, began) if is_track else None, place, limits, search))


def values_of(lines, *names):
    """Some values of each line."""
    return [tuple(line[NUMBER[name]] for name in names) for line in lines]


class TestEpochs:
    def test_a_piece_ends_with_the_epoch_that_keeps_no_box(self, room):
        # Behind the lost one a log goes on, where the settings have it so: with one that is few, and one in the first
        # search box.
        again = WITHIN.replace("epoch 1 895816769", "epoch 5 895816779")
        told = values_of(lines_of(room, TUBE + LOST + FEW + again, True), "epoch", "mark", "piece", "began_epoch")
        assert told == [(1, "ok", 1, 1), (2, "ok", 1, 1), (3, "lost", 1, 1), (4, "few", 2, 4), (5, "ok", 2, 4)]
        # A track that is lost in its first epoch has nothing by which the log alone would tell it from one of solve.
        empty = PAVED.split("split", 1)[0] + "out 0\ndone 0\n"
        assert values_of(lines_of(room, empty, True), "mark", "piece") == [("lost", 1)]
        assert values_of(lines_of(room, empty), "mark", "piece") == [("empty", "")]

    def test_known_places_and_limits(self, room):
        names = ("held", "hpl_m", "vpl_m", "horizontal_reach_m", "vertical_reach_m", "available", "misleading")
        # The box is 4 m high, 10 m wide and 20 m long: sqrt(125) m from its middle to a corner. Up is along x but for
        # 4e-6, which lengths that are rounded up to decimetres show.
        for place, limits, wanted in (
            (None, None, ("", "", "", "11.2", "2.1", "", "")),
            (None, Limits(12, 2.1), ("", "", "", "11.2", "2.1", 1, "")),
            (None, Limits(11, 2.1), ("", "", "", "11.2", "2.1", 0, "")),
            (MIDDLE, Limits(12, 1), (1, "11.2", "2.1", "11.2", "2.1", 0, 0)),
            (ABOVE, Limits(12, 2.1), (0, "11.2", "5.1", "11.2", "2.1", 1, 1)),
            (MIDDLE, None, (1, "11.2", "2.1", "11.2", "2.1", "", 0)),
        ):
            assert values_of(lines_of(room, WITHIN, place=place, limits=limits), *names) == [wanted]
        # A region that reaches the search box protects nothing; an epoch without a region has no value.
        assert values_of(lines_of(room, PAVED, limits=Limits(1000, 1000)), "available") == [(0,)]
        assert values_of(lines_of(room, FEW, place=MIDDLE), *names) == [("",) * len(names)]

    def test_suspects_and_certified_bounds_are_those_of_the_log(self):
        path = ROOT / "examples/renewed-rows.log"
        assert set(values_of(epoch_lines(path, None, None, None), "certified", "suspects")) <= {(0, "")}


class TestPage:
    EPOCHS = 4  # of a day

    def page(self, room, lines, limits, links=""):
        """The page of one station with a day of one part, and of a day that is absent."""
        head = ["STAT", "2024-01-01", 1]
        (room / "days/STAT").mkdir(parents=True)
        (room / "verdicts/STAT/2024-01-01").mkdir(parents=True)
        text = "\n".join(",".join(map(str, line)) for line in [ROW_HEAD, *(head + line for line in lines)])
        (room / "days/STAT/2024-01-01.csv").write_text(text + "\n")
        file = {"bytes": 1, "sha256": "0"}
        write_json(
            room / "verdicts/STAT/2024-01-01/1.json",
            dict(zip(("station", "day", "part"), head))
            | {"options": "", "command": "track", "verdict": "yes 1", "program": {"sha256": "0", "commit": ""}}
            | {"sources": [], "files": {role: file for role in ("obs", "nav", "settings", "log")}},
        )
        stations = [["STAT", 6378137000, 0, 0, None, None, None], ["NONE", *[None] * 6]]
        listed = {"days": [head[:2]], "parts": 1, "absent": [["STAT", "2024-01-02"]], "stations": stations}
        write_json(room / "listed.json", listed | {"limits": limits})
        tables.make_database(Namespace(out=str(room), file={"listed": room / "listed.json"}), room / "network.sqlite")
        return report.page(room / "network.sqlite", self.EPOCHS, links)

    def cells(self, page, caption):
        """The texts of the cells of a table, line by line."""
        (table,) = re.findall(f"<caption>{caption}.*?</table>", page, re.DOTALL)
        lines = [re.findall("<t[hd][^>]*>(.*?)</t[hd]>", line) for line in table.split("\n")]
        return [line for line in lines if line][1:]

    def test_what_the_tables_say(self, room):
        lines = lines_of(room, TUBE + LOST, True, MIDDLE, Limits(12, 2.1))
        lines[0][NUMBER["suspects"]] = "G05 G07"
        page = self.page(room, lines, [12, 2.1], "pages")
        ((name, epochs, regions, reach, few, empty, lost, pieces, certified, *_),) = self.cells(page, "All days")
        counts = (name, epochs, regions, reach, few, empty, lost, pieces, certified)
        assert counts == ("STAT", "3", "2", "0", "0", "0", "1", "1", "0")
        # The second region is the whole box of 14, 20 and 30 m.
        ((_, regions, held, _, medians, greatest, *judged),) = self.cells(page, "Known places")
        assert (regions, held, judged) == ("2", "2", ["1", "0", "0"])
        assert (medians, greatest) == ("14.7 × 4.6", "18.1 × 7.1")
        link = '<a href="pages/STAT/2024-01-01.html">{}</a>'
        assert self.cells(page, "Availability: epochs with a region") == [["STAT", link.format("50.0 %"), "absent"]]
        assert self.cells(page, "Availability: epochs within the limits of 12 × 2.1 m") == [
            ["STAT", link.format("25.0 %"), "absent"]
        ]
        assert self.cells(page, "Satellites that surely broke") == [["STAT", "G05: 1", "G07: 1"]]
        # Two of eight expected epochs have a region, so the curves end at 24 percent.
        points = re.findall('<polyline points="([^"]*)"', page)
        assert [len(line.split()) for line in points] == [12, 12]
        assert page.count("<circle") == 1 and "0.000° N, 0.000° E" in page

    def test_a_page_without_places_and_limits(self, room):
        page = self.page(room, lines_of(room, FEW, True), None)
        assert "Known places" not in page and "within the limits" not in page and "<a href" not in page
        assert self.cells(page, "Availability: epochs with a region") == [["STAT", "0.0 %", "absent"]]


@needs_engine
class TestRuns:
    @pytest.fixture(autouse=True)
    def room_of_two_stations(self, program, request):
        self.network = Room(program)
        self.select = self.network.select
        request.addfinalizer(self.network.remove)

    def test_a_track_that_is_lost_and_a_page_a_day(self):
        pytest.importorskip("plotly")
        # A vehicle that is said to stand: by 21 epochs 5 s apart it drives a kilometre.
        data = self.network.path / "data"
        (data / "UBX02008147.obs.gz").unlink()
        shutil.copy(ROOT / "examples/vehicle.obs", data / "UBX02008147.obs.gz")
        shutil.copy(ROOT / "examples/vehicle.nav", data / "brdc2008147.nav")
        config = self.network.configuration().replace("epochs: 4\npart: 2", "epochs: 21\npart: 21")
        self.network.configure(config + "pages: true\n")
        assert self.network.run() == 0, self.network.said()
        ((count, last),) = self.select("SELECT count(*), max(epoch) FROM epochs WHERE station = 'UBX0'")
        assert count == last < 21
        wanted = [(last, 1, "lost")]
        assert self.select("SELECT epoch, piece, mark FROM epochs WHERE mark = 'lost'") == wanted
        page = (self.network.out / "network.html").read_text()
        for name in ("UBX0/2008-05-26", "GEON/2005-04-02"):
            assert f'<a href="pages/{name}.html">' in page
            text = (self.network.out / f"pages/{name}.html").read_text()
            assert f"<title>{name.replace('/', ' ')}</title>" in text
        assert self.network.audit()[1].count(": yes ") == 2

    def test_a_code_that_a_file_lacks_is_named(self):
        config = self.network.configuration()
        for name, codes, bounds, why in (
            ("dual", '["C1C", "C2X"]', "", "solve: solve: status 3, obs 16 CodeAbsent line 20"),
            ("single", '["C1W"]', "", "solve: track: status 3, obs 16 CodeAbsent line 21"),
            ("single", '["C1W"]', ', bounds: "single"', "settings: a first look: status 3, obs 16 CodeAbsent line 21"),
        ):
            text = (self.network.path / f"data/{name}.toml").read_text()
            (self.network.path / "data/lacks.toml").write_text(re.sub("(?m)^codes = .*", f"codes = {codes}", text))
            self.network.configure(config.replace(f"settings: data/{name}.toml", f"settings: data/lacks.toml{bounds}"))
            shutil.rmtree(self.network.out, ignore_errors=True)
            assert self.network.run() == 1
            file, code = ("GEON2005092", "C2X") if name == "dual" else ("UBX02008147", "C1W")
            there = "C1C C2W" if name == "dual" else "C1C"
            for line in self.network.lines():
                assert line.endswith(f"{why}: data/{file}.obs.gz has no {code} of GPS (there is {there})")
            assert self.network.lines()

    def test_the_template_runs_as_it_stands(self, program):
        pytest.importorskip("plotly")
        mine = self.network.path / "mine"
        shutil.copytree(HERE / "template", mine)
        (self.network.path / "examples").symlink_to(ROOT / "examples")
        config = f"program: {program}\n" + (mine / "config.yaml").read_text()
        (mine / "config.yaml").write_text(config)
        words = ["snakemake", "-s", HERE / "Snakefile", "--configfile", "config.yaml"]
        words = [*words, "--profile", HERE / "local", "--jobs", "2"]
        ran = subprocess.run([*words, "--dry-run"], cwd=mine, capture_output=True, text=True)
        assert ran.returncode == 0 and "solve           2" in ran.stdout + ran.stderr
        assert not (mine / "network").exists()
        ran = subprocess.run(words, cwd=mine, capture_output=True, text=True)
        assert ran.returncode == 0, ran.stderr
        self.network.out = mine / "network"
        told = self.select("SELECT station, command FROM files WHERE role = 'log'")
        assert told == [("GEON", "track"), ("UBX0", "track")]
        assert self.select("SELECT DISTINCT held, available, certified, count(*) FROM epochs") == [(1, 1, 1, 8)]
        assert (mine / "network/pages/GEON/2005-04-02.html").exists()
