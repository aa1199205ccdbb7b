"""The command that begins with a receiver's two files, by the program of GPSCOVER or of ./gpscover."""

import gzip
import os
import shutil
import tempfile
from dataclasses import replace
from pathlib import Path

import pytest
from made_logs import EXAMPLES, ended

from gpscover import Settings, begin, geodesy, observations, open_log
from gpscover.program import own_program
from gpscover.settings import Galileo

PROGRAM = os.environ.get("GPSCOVER") or str(own_program())
NAV = EXAMPLES / "receiver.nav"


def begun(room, change=lambda text: text, *words):
    """The status, output and error of beginning with the example's observations, changed, and the folder."""
    obs, folder = room / "my.obs.gz", room / "begun"
    text = change((EXAMPLES / "receiver.obs").read_text(encoding="utf-8"))
    obs.write_bytes(gzip.compress(text.encode()))
    return *ended(begin, obs, NAV, folder, "--program", PROGRAM, *words), folder


def with_position(text, position):
    """The observations with another position in the header."""
    lines = text.splitlines(keepends=True)
    at = next(k for k, line in enumerate(lines) if "APPROX POSITION" in line)
    lines[at] = f"{position:60}APPROX POSITION XYZ\n" if position else ""
    return "".join(lines)


class TestBegin:
    def test_two_files_become_a_checked_log_and_its_table(self):
        with tempfile.TemporaryDirectory() as name:
            status, out, err, folder = begun(Path(name))
            assert (status, err) == (0, "")
            assert "check says yes " in out and "epochs 4: 4 with a region, of which 0 reach the search box" in out
            settings = Settings.read(folder / "settings.toml")
            assert (settings.search.half, settings.signal.codes, settings.search.renew) == (1_000_000, ("C1C",), True)
            assert (settings.search.bisections, settings.search.directions) == (64, 8)
            # 1.02 * 2.65 m, and 402 mm for the noise
            assert (settings.bounds.zenith[1], settings.bounds.vertical, settings.satellites) == (3105, (0, 10000), {})
            assert "round the place of the header, with 4 of 4 epochs" in (folder / "settings.toml").read_text()
            assert len(list(open_log(folder / "receiver.log"))) == 4
            assert (folder / "summary.txt").read_text().count("\n") == 7
            assert not (folder / "look.log").exists()

    def test_a_header_far_off_is_told_or_passed_over(self):
        far = "  -369302.7000  6436558.5346  -717357.8582"
        with tempfile.TemporaryDirectory() as name:
            status, out, err, folder = begun(Path(name), lambda text: with_position(text, far))
            if shutil.which("rnx2rtkp"):
                assert status == 0
                assert "fits within 100 km of the header (-369303 6436559 -717358): that place is wrong" in out
                assert "round the place of RTKLIB" in (folder / "settings.toml").read_text()
            else:
                assert status == 1
                assert "no position fits within 100 km of the header (-369303 6436559 -717358)" in err

    def test_a_place_that_is_said_is_taken_where_there_is_none(self):
        with tempfile.TemporaryDirectory() as name:
            words = ["--place", "-3869310", "3436565", "3717366", "--splits", "4"]
            status, _, _, folder = begun(Path(name), lambda text: with_position(text, ""), *words)
            assert status == 0
            assert "round the place of what you said" in (folder / "settings.toml").read_text()

    def test_a_folder_that_is_there_is_left_alone(self):
        with tempfile.TemporaryDirectory() as name:
            (Path(name) / "begun").mkdir()
            assert "File exists" in begun(Path(name))[2]

    @pytest.mark.parametrize("height, least", [(0, 1.95), (999, 1.95), (3000, 1.48)])
    def test_the_dry_air_goes_by_the_height(self, height, least):
        parts, _ = begin.parts_for(geodesy.earth_fixed(0.7, 0.1, height))
        assert parts.troposphere == (least, 2.65)
        assert parts.ionosphere == (0.0, 10.0)
        assert begin.parts_for(geodesy.earth_fixed(0.2, 0.1, 0))[0].ionosphere == (0.0, 25.0)


class TestCodes:
    # The second line of a system goes on with its types (RINEX 3.04, table A2).
    HEAD = (
        f"{'G   14 C1C L1C D1C S1C C1W L1W D1W S1W C2W L2W D2W S2W C5Q':60}SYS / # / OBS TYPES\n"
        f"{'       C5X':60}SYS / # / OBS TYPES\n"
        f"{'E    2 C1C C5Q':60}SYS / # / OBS TYPES\n"
        f"{'':60}END OF HEADER\n"
        f"{'R    1 C1P':60}SYS / # / OBS TYPES\n"
    )

    def test_codes_that_a_file_lacks_are_named_with_those_that_it_has(self, room):
        path = room / "made.obs"
        path.write_text(self.HEAD, encoding="ascii")
        assert observations.types_of(path)["G"][-2:] == ["C5Q", "C5X"]
        assert sorted(observations.types_of(path)) == ["E", "G"]
        settings = Settings.read(EXAMPLES / "settings.toml")
        dual = replace(settings, signal=replace(settings.signal, codes=("C1C", "C2X")))
        both = replace(dual, galileo=Galileo(("C1X", "C5Q"), (-100, 100)))
        lacks = "C2X of GPS (there is C1C C1W C2W C5Q C5X)"
        assert observations.absent_codes(path, settings) == []
        assert observations.absent_codes(path, dual) == [lacks]
        assert observations.absent_codes(path, both) == [lacks, "C1X of Galileo (there is C1C C5Q)"]
        path.write_text(self.HEAD.replace("E    2", "S    2"), encoding="ascii")
        assert observations.absent_codes(path, both)[1:] == [
            f"{it} of Galileo (there is none)" for it in ("C1X", "C5Q")
        ]
