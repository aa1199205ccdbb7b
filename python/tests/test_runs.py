"""Runs of the program as values. They need it: by GPSCOVER, or as ./gpscover finds it."""

import os
import re
import sys
from types import SimpleNamespace

import pytest
from made_logs import EXAMPLES

import gpscover
from gpscover import runs

FILES = EXAMPLES / "receiver.obs", EXAMPLES / "receiver.nav"


@pytest.fixture(scope="module")
def settings():
    """The example's, with eight splits and a greatest speed."""
    text = (EXAMPLES / "settings.toml").read_text(encoding="utf-8")
    text = re.sub(r"(?m)^bisections = .*", "bisections = 8", text)
    return gpscover.Settings.from_toml(text + "\n[motion]\nspeed = 3000\n")


@pytest.fixture(scope="module")
def log(settings, tmp_path_factory):
    """The log of two epochs."""
    path = tmp_path_factory.mktemp("run") / "two.log"
    seen = []
    report = gpscover.solve(*FILES, settings, path, last=2, progress=seen.append)
    assert (seen, report.epochs, report.lost) == ([1, 2], 2, None)
    return path


def test_no_report_is_wanted_without_progress(settings, log, tmp_path):
    """The log is the same, and so is what is read off it."""
    report = gpscover.solve(*FILES, settings, tmp_path / "quiet.log", last=2)
    assert (tmp_path / "quiet.log").read_bytes() == log.read_bytes()
    assert (report.epochs, report.lost) == (2, None)


def test_the_epoch_in_which_a_track_is_lost(tmp_path):
    """The last one, where it is searched and keeps no box; in a log of `solve` no track ends."""
    head, few = "gpscover 1\nrules 1 4 1000\n", "few 3 0 1\n"
    paved = "epoch {} 0 4\nroot 0 0 0 1 1 1\n{}done 0\n"
    kept, none = paved.format(1, "edge 0 0 0\n"), paved.format(2, "out 0\n")
    for text, epochs, lost in (
        (head, 0, None),
        (head + kept, 1, None),
        (head + kept + none, 2, 2),
        (head + none, 1, 2),
        (head + kept + few, 2, None),
    ):
        path = tmp_path / "any.log"
        path.write_text(text, encoding="ascii")
        for tracked in True, False:
            report = gpscover.Report(gpscover.open_log(path), tracked)
            assert (report.epochs, report.lost) == (epochs, lost if tracked else None)


def test_a_yes_has_as_many_boxes_as_the_log(settings, log):
    boxes = sum(len(epoch.kept) for epoch in gpscover.open_log(log))
    wanted = gpscover.Verdict(True, boxes)
    assert gpscover.check(*FILES, settings, log, last=2) == wanted
    assert gpscover.judge(log) == wanted


def test_a_bar_steps_at_a_terminal_alone(monkeypatch):
    seen = []
    bar = SimpleNamespace(update=seen.append)
    monkeypatch.setitem(
        sys.modules, "tqdm", SimpleNamespace(tqdm=lambda total, unit: seen.append((total, unit)) or bar)
    )
    monkeypatch.setattr(sys, "stderr", SimpleNamespace(isatty=lambda: False))
    assert gpscover.progress_bar(4) is None
    monkeypatch.setattr(sys, "stderr", SimpleNamespace(isatty=lambda: True))
    for index in 7, 9:
        gpscover.progress_bar(4)(index)
    assert seen == [(4, "epoch"), 1] * 2
    monkeypatch.setitem(sys.modules, "tqdm", None)
    assert gpscover.progress_bar(4) is None


def test_a_no_is_no_yes(settings, log):
    # The log has two epochs of four: the third one is missing behind its last line.
    lines = log.read_text(encoding="ascii").count("\n")
    found = gpscover.check(*FILES, settings, log)
    assert (found.yes, found.boxes, found.number, found.name) == (False, None, 51, "EpochDiffers")
    assert found.line == lines + 1
    assert not found


def test_a_track_and_its_check(settings, tmp_path):
    path = tmp_path / "track.log"
    assert gpscover.track(*FILES, settings, path, last=2).lost is None
    assert gpscover.retrack(*FILES, settings, path, last=2).yes


def test_zones_are_answered(settings, log, tmp_path):
    zones = tmp_path / "far.zones"
    zones.write_text("gpszones 2\nzone far 0 0 0 1 1 1\nreach up 0 0 1\n", encoding="ascii")
    found = gpscover.guard(*FILES, settings, zones, log, last=2)
    assert [it.told for it in found if it.kind == "zone" and it.epoch] == [("outside",)] * 2
    assert found[-2].told == ("outside", "2", "inside", "0", "open", "0", "few", "0")
    with pytest.raises(gpscover.Refused) as refused:
        gpscover.guard(*FILES, settings, zones, log)
    assert (refused.value.role, refused.value.number) == ("log", 51)


def test_a_file_that_is_refused_is_named(settings, tmp_path):
    with pytest.raises(gpscover.Refused) as refused:
        gpscover.solve(FILES[1], FILES[1], settings, tmp_path / "a.log")
    error = refused.value
    assert (error.status, error.role, error.number, error.name) == (3, "obs", 12, "Kind")
    assert error.line == 1
    with pytest.raises(gpscover.ProgramError) as ended:
        gpscover.solve("none", "none", settings, tmp_path / "a.log")
    assert (ended.value.status, ended.value.said) == (4, "nav fault")
    assert os.listdir(tmp_path) == []


def test_a_program_that_is_none(settings, tmp_path):
    for name in ("/nonexistent", str(tmp_path)):
        with pytest.raises(gpscover.ProgramError) as ended:
            gpscover.check(*FILES, settings, "a.log", program=name)
        assert ended.value.status == 125


def test_what_is_no_verdict_is_an_error(tmp_path):
    for said in ("yes", "yes x", "no", "no 51", "", "yes 5 6"):
        stub = tmp_path / "stub"
        stub.write_text(f"#!/bin/sh\necho '{said}'\n", encoding="ascii")
        stub.chmod(0o755)
        with pytest.raises(gpscover.ProgramError):
            runs.judge("a.log", program=stub)


def test_a_station_beside_the_receiver(tmp_path):
    pair = EXAMPLES / "station"
    text = (pair / "settings.toml").read_text(encoding="utf-8")
    text = re.sub(r"(?m)^bisections = .*", "bisections = 8", text) + "\n[motion]\nspeed = 0\n"
    settings = gpscover.Settings.from_toml(text)
    files = pair / "receiver.obs", pair / "receiver.nav", settings
    ways = {"station": pair / "station.obs", "last": 2}
    report = gpscover.solve(*files, tmp_path / "pair.log", **ways)
    boxes = sum(len(epoch.kept) for epoch in report.log)
    assert gpscover.check(*files, tmp_path / "pair.log", **ways) == gpscover.Verdict(True, boxes)
    assert gpscover.track(*files, tmp_path / "still.log", **ways).lost is None
    assert gpscover.retrack(*files, tmp_path / "still.log", **ways).yes
    zones = tmp_path / "up.zones"
    zones.write_text("gpszones 2\nreach up 0 0 1\n", encoding="ascii")
    assert len(gpscover.guard(*files, zones, tmp_path / "pair.log", **ways)) == 3
    for name, role, number in (("receiver.nav", "station", 12), (None, "settings", 33)):
        ways["station"] = name and pair / name
        with pytest.raises(gpscover.Refused) as refused:
            gpscover.check(*files, tmp_path / "pair.log", **ways)
        assert (refused.value.role, refused.value.number) == (role, number)
