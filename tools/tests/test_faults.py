"""Faults that are planted in a recorded receiver's ranges."""
import subprocess
import sys
from pathlib import Path

from tools.faults import code_columns, with_fault

EXAMPLES = Path("examples/station")
PLACE = ("-3976219.187", "3382371.605", "3652511.142")


def test_a_fault_is_in_all_codes_of_one_satellite_and_nowhere_else():
    text = (EXAMPLES / "receiver.obs").read_text()
    lines, others = text.splitlines(), with_fault(text, "G07", 60).splitlines()
    columns = code_columns(lines)
    assert len(lines) == len(others) and len(columns) == 2
    for line, other in zip(lines, others):
        if line.startswith("G07"):
            assert all(abs(float(other[at : at + 14]) - float(line[at : at + 14]) - 60) < 1e-6 for at in columns)
        else:
            assert line == other


def test_the_region_holds_the_place_and_names_the_satellite(program, room):
    settings = room / "settings.toml"
    settings.write_text((EXAMPLES / "settings.toml").read_text().replace("bisections = 64", "bisections = 16"))
    words = [EXAMPLES / "receiver.obs", EXAMPLES / "receiver.nav", settings, "60", "--place", *PLACE]
    words += ["--station", EXAMPLES / "station.obs", "--program", program]
    said = subprocess.run([sys.executable, "-m", "tools.faults", *words], capture_output=True, text=True, check=True)
    assert said.stdout.splitlines()[1].split() == ["60", "32", "32", "32", "32", "0"]
