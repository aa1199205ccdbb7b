"""Prepares the files of an archive for `gpscover solve`, and says in one line a file what it did.

usage: gpslog files FILE.. --to FOLDER

  gzip, compress        is unpacked (.gz, .Z)
  Hatanaka              is undone by crx2rnx, where that is installed (RNXCMP)
  RINEX 2               becomes RINEX 3.04 by convbin, where that is installed (RTKLIB)
  navigation, RINEX 4   the records LNAV of GPS, and FNAV and INAV of Galileo, are written as RINEX
                        3.05; others are left out, as are the lines that begin with >
  anything else         is written as it stands

No number is changed here: each field is the bytes that were there. Nothing of this is proved: what
`gpscover` reads are the files that are written. A file is named as before, without what was undone.

Exit status: 0; 1 where a file can't be read, prepared or written; 2 for a wrong command line.
"""

from __future__ import annotations

import argparse
import gzip
import io
import shutil
import subprocess
import tempfile
import zlib
from pathlib import Path

from gpscover.command import Command
from gpscover.errors import Error

MOST_BYTES = 1 << 30  # of a file, unpacked
GZIP, COMPRESS = b"\x1f\x8b", b"\x1f\x9d"  # how such files begin
LABEL = slice(60, 80)  # the columns of a header line's label
VERSION_LABEL = b"RINEX VERSION / TYPE"
TAKEN = {(b"G", b"LNAV"), (b"E", b"FNAV"), (b"E", b"INAV")}
HEADER_LABELS = {b"PGM / RUN BY / DATE", b"COMMENT", b"LEAP SECONDS", b"END OF HEADER"}
RECORD_LINES = 8  # of LNAV, FNAV and INAV


def piped(words: list[str], data: bytes, package: str) -> bytes:
    """What a program makes of its standard input. Error where it isn't there, or fails."""
    if shutil.which(words[0]) is None:
        raise Error(f"{words[0]} isn't installed ({package})")
    ran = subprocess.run(words, input=data, capture_output=True)
    if ran.returncode:
        said = ran.stderr.decode(errors="replace").strip().splitlines()
        raise Error(f"{words[0]} ended with {ran.returncode}: {said[0] if said else 'no word'}")
    return ran.stdout


def gunzipped(data: bytes) -> bytes:
    """The bytes of a gzip file."""
    try:
        with gzip.open(io.BytesIO(data)) as file:
            found = file.read(MOST_BYTES + 1)
    except (OSError, EOFError, zlib.error) as error:
        raise Error(f"it can't be unpacked: {error}") from None
    if len(found) > MOST_BYTES:
        raise Error("unpacked it has more than 1 GB")
    return found


def unpacked(data: bytes, done: list[str]) -> bytes:
    """The bytes of a file that may be packed."""
    if data.startswith(GZIP):
        done.append("gzip")
        return gunzipped(data)
    if data.startswith(COMPRESS):
        done.append("compress")
        return piped(["gzip", "-dc"], data, "gzip")
    return data


def label_of(data: bytes) -> bytes:
    """The label of the first line."""
    return data.split(b"\n", 1)[0][LABEL].strip()


def without_hatanaka(data: bytes, done: list[str]) -> bytes:
    """The bytes of a file of observations that may have Hatanaka's compression."""
    if label_of(data) != b"CRINEX VERS   / TYPE":
        return data
    done.append("Hatanaka")
    return piped(["crx2rnx", "-"], data, "RNXCMP, https://terras.gsi.go.jp/ja/crx2rnx.html")


def version_of(data: bytes) -> tuple[int, bytes]:
    """The version and the file type of a RINEX file; (0, b"") of another one."""
    line = data.split(b"\n", 1)[0]
    if line[LABEL].strip() != VERSION_LABEL:
        return 0, b""
    number = line[:9].strip().split(b".")[0]
    return int(number) if number.isdigit() and len(number) < 3 else 0, line[20:21]


def from_version_2(data: bytes, kind: bytes, done: list[str]) -> bytes:
    """A file of RINEX 2 as one of 3.04, by convbin."""
    if shutil.which("convbin") is None:
        raise Error("RINEX 2: convbin isn't installed (RTKLIB; Debian: apt-get install rtklib)")
    with tempfile.TemporaryDirectory() as room:
        old, new = Path(room) / f"old.{'n' if kind == b'N' else 'o'}", Path(room) / "new"
        old.write_bytes(data)
        way = "-n" if kind == b"N" else "-o"
        words = ["convbin", "-r", "rinex", "-v", "3.04", way, str(new), str(old)]
        ran = subprocess.run(words, capture_output=True)
        if ran.returncode or not new.is_file() or not new.stat().st_size:
            raise Error("RINEX 2: convbin made no file of it")
        done.append("RINEX 2 by convbin")
        return new.read_bytes()


def header_of_3(lines: list[bytes]) -> list[bytes]:
    """The header of a navigation file of version 4 as that of one of 3.05."""
    kept = [line for line in lines[1:] if line[LABEL].strip() in HEADER_LABELS]
    return [b"     3.05" + lines[0][9:], *kept]


def from_version_4(data: bytes, done: list[str]) -> bytes:
    """A navigation file of RINEX 4 as one of 3.05, with the records that are taken."""
    lines = data.splitlines(keepends=True)
    ends = [k for k, line in enumerate(lines) if line[LABEL].strip() == b"END OF HEADER"]
    if not ends:
        raise Error("RINEX 4: it has no end of its header")
    body, kept, left = lines[ends[0] + 1 :], [], 0
    starts = [k for k, line in enumerate(body) if line.startswith(b">")]
    for start, end in zip(starts, [*starts[1:], len(body)]):
        words = body[start].split()
        taken = len(words) == 4 and words[1] == b"EPH" and (words[2][:1], words[3]) in TAKEN
        if taken and end - start != 1 + RECORD_LINES:
            raise Error(f"RINEX 4: the record {words[2].decode()} hasn't {RECORD_LINES} lines")
        kept += body[start + 1 : end] if taken else []
        left += not taken
    count = len(kept) // RECORD_LINES
    done.append(f"RINEX 4: {count} records written as 3.05, {left} left out")
    return b"".join([*header_of_3(lines[: ends[0] + 1]), *kept])


def prepared(data: bytes) -> tuple[bytes, list[str]]:
    """The bytes that `gpscover` reads, and what was done."""
    done: list[str] = []
    data = without_hatanaka(unpacked(data, done), done)
    version, kind = version_of(data)
    if version == 2:
        data = from_version_2(data, kind, done)
    elif version == 4 and kind == b"N":
        data = from_version_4(data, done)
    elif version not in (0, 3):
        raise Error(f"RINEX {version} of the type {kind.decode(errors='replace')} isn't prepared")
    if not version:
        done.append("no RINEX")
    return data, done


def new_name(name: str) -> str:
    """A file's name without what was undone."""
    for ending, new in ((".gz", ""), (".Z", ""), (".crx", ".rnx"), (".CRX", ".RNX")):
        if name.endswith(ending):
            name = name[: -len(ending)] + new
    return name


def prepare(path: str, folder: Path) -> str:
    """Prepares a file, and says what was done."""
    source = Path(path)
    if source.stat().st_size > MOST_BYTES:
        raise Error(f"{path}: it has more than 1 GB")
    out = folder / new_name(source.name)
    if out.exists():
        raise Error(f"{path}: {out} is there already")
    try:
        data, done = prepared(source.read_bytes())
    except Error as error:
        raise Error(f"{path}: {error}") from None
    out.write_bytes(data)
    return f"{path}: {', '.join(done) or 'as it stands'} -> {out}"


def arguments(parser: argparse.ArgumentParser) -> None:
    """The words of the command line."""
    parser.add_argument("files", metavar="FILE", nargs="+")
    parser.add_argument("--to", metavar="FOLDER", required=True, help="where the files are written")


def run(args: argparse.Namespace) -> int:
    """Prepares the files. The status: that of the last line is 1 where one can't be."""
    folder = Path(args.to)
    folder.mkdir(parents=True, exist_ok=True)
    for path in args.files:
        print(prepare(path, folder), flush=True)
    return 0


COMMAND = Command("files", "an archive's files, as solve reads them", arguments, run, __doc__)
