"""Files of an archive: each field is the bytes that were there."""

import gzip
import shutil

import pytest
from made_logs import EXAMPLES, ended

from gpscover import Error, files


def header(version, kind, *labels):
    """The header of a RINEX file."""
    first = f"{version:>9}{'':11}{kind:<20}{'M: MIXED':<20}RINEX VERSION / TYPE"
    return "".join(f"{line}\n" for line in (first, *(f"{'x':<60}{it}" for it in labels)))


def record(name, mark):
    """A record of eight lines, whose fields have a mark."""
    return f"{name} {mark}\n" + "".join(f"    {mark}{k} 1.0D-0{k}\n" for k in range(7))


RECORDS = (  # the line of version 4, whether the record is taken
    ("> EPH G01 LNAV", record("G01", "a"), True),
    ("> EPH G01 CNAV", record("G01", "b"), False),
    ("> EPH E05 FNAV", record("E05", "c"), True),
    ("> EPH E05 INAV", record("E05", "d"), True),
    ("> EPH R05 FDMA", "R05\n" * 5, False),
    ("> EPH C05 D1", record("C05", "e"), False),
    ("> EPH J02 LNAV", record("J02", "f"), False),
    ("> STO G01 LNAV", "    GPUT\n    1.0\n", False),
    ("> ION G01 LNAV", "    1.0\n", False),
)
LABELS = ("PGM / RUN BY / DATE", "DOI", "LEAP SECONDS", "LICENSE OF USE", "END OF HEADER")
VERSION_4 = header("4.00", "N: GNSS NAV DATA", *LABELS) + "".join(f"{line}\n{text}" for line, text, _ in RECORDS)


def test_broadcast_files_of_version_4():
    found, done = files.prepared(VERSION_4.encode())
    head, _, body = found.decode().partition("END OF HEADER\n")
    assert head.splitlines()[0] == header("4.00", "N: GNSS NAV DATA").replace("4.00", "3.05")[:-1]
    assert [line[60:] for line in head.splitlines()[1:]] == [LABELS[0], LABELS[2], ""]
    assert body == "".join(text for _, text, taken in RECORDS if taken)
    assert done == ["RINEX 4: 3 records written as 3.05, 6 left out"]


def test_line_ends_stay():
    text = VERSION_4.replace("\n", "\r\n").encode()
    assert files.prepared(text)[0] == files.prepared(VERSION_4.encode())[0].replace(b"\n", b"\r\n")


def test_gzip_and_what_stands_as_it_is(tmp_path):
    data = (EXAMPLES / "receiver.obs").read_bytes()
    for name, text in (("a.obs.gz", gzip.compress(data)), ("b.obs", data)):
        (tmp_path / name).write_bytes(text)
        status, out, _ = ended(files, tmp_path / name, "--to", tmp_path / "out")
        new = tmp_path / "out" / name[:5]
        way = "gzip" if name.endswith("gz") else "as it stands"
        assert (status, out) == (0, f"{tmp_path / name}: {way} -> {new}\n")
        assert new.read_bytes() == data


def test_nothing_is_written_over(tmp_path):
    (tmp_path / "a").write_text("b")
    assert ended(files, tmp_path / "a", "--to", tmp_path)[0] == 1
    assert (tmp_path / "a").read_text() == "b"


def test_a_program_that_is_not_there_is_named(monkeypatch):
    monkeypatch.setattr(shutil, "which", lambda name: None)
    hatanaka = f"{'1.0':<60}CRINEX VERS   / TYPE\n".encode()
    for data, name in ((hatanaka, "crx2rnx"), (header("2.11", "O").encode(), "convbin")):
        with pytest.raises(Error, match=f"{name} isn't installed"):
            files.prepared(data)


@pytest.mark.parametrize(
    "data, told",
    (
        (gzip.compress(b"a" * 1000)[:20], "can't be unpacked"),
        (b"\x1f\x8b", "can't be unpacked"),
        (header("4.00", "N").encode(), "no end of its header"),
        (VERSION_4.replace("    a3 1.0D-03\n", "").encode(), "the record G01 hasn't 8 lines"),
        (header("4.00", "O").encode(), "RINEX 4 of the type O isn't prepared"),
        (header("1", "O").encode(), "RINEX 1 of the type O isn't prepared"),
    ),
)
def test_what_can_not_be_prepared_is_told_in_one_line(data, told, tmp_path):
    (tmp_path / "a").write_bytes(data)
    status, out, err = ended(files, tmp_path / "a", "--to", tmp_path / "out")
    assert (status, out, err.count("\n")) == (1, "", 1)
    assert told in err
    assert list((tmp_path / "out").iterdir()) == []
