"""The lines of docs/NOTEBOOK.md do what the page says."""

import json
import os
import re
import subprocess
import sys
from xml.etree import ElementTree

import pytest
from made_logs import TOP

import gpscover

pytest.importorskip("pandas")


def test_its_lines_run(tmp_path, monkeypatch, capsys):
    page = (TOP / "docs/NOTEBOOK.md").read_text(encoding="utf-8")
    (code,) = re.findall(r"```python\n(.*?)```", page, re.DOTALL)
    _, commands = re.findall(r"```sh\n(.*?)```", page, re.DOTALL)
    for name in ("examples", "scripts", "gpslog"):
        os.symlink(TOP / name, tmp_path / name)
    monkeypatch.chdir(tmp_path)
    exec(compile(code, "NOTEBOOK.md", "exec"), {})
    said = capsys.readouterr().out
    assert "a region, which holds it in 4\n" in said
    marks = ElementTree.parse("receiver.kml").getroot()[0].findall("{*}Placemark")
    assert len(marks) == 4
    subprocess.run(["sh", "-ec", commands], check=True, env={**os.environ, "GPSLOG_PYTHON": sys.executable})
    boxes = sum(len(epoch.kept) for epoch in gpscover.open_log("receiver.log"))
    assert (tmp_path / "boxes.csv").read_text().count("\n") == 1 + boxes
    assert len(json.loads((tmp_path / "regions.geojson").read_text())["features"]) == 4
