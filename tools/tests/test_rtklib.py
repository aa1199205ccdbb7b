"""Places by RTKLIB with the settings that are shipped."""
import shutil
import subprocess
from statistics import mean

import pytest

from gpscover.geodesy import Frame

STATIONS = {"receiver": (-3976219.187, 3382371.605, 3652511.142), "station": (-3978241.958, 3382840.234, 3649900.853)}


@pytest.mark.skipif(shutil.which("rnx2rtkp") is None, reason="rnx2rtkp isn't installed")
@pytest.mark.parametrize("name", STATIONS)
def test_heights_are_within_3_m_of_both_known_places(name):
    words = ["-k", "examples/rtklib.conf", f"examples/station/{name}.obs", "examples/station/receiver.nav"]
    said = subprocess.run(["rnx2rtkp", *words], capture_output=True, text=True, check=True).stdout
    lines = [line.split() for line in said.splitlines() if line[0] != "%"]
    away = [Frame.at(STATIONS[name]).offset([float(word) for word in line[2:5]]) for line in lines]
    assert len(away) == 4
    assert abs(mean(up for _, _, up in away)) < 3
