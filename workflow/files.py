"""Files of a run: whole ones under their own names, their checksums, and what they were before they were packed."""
import hashlib
import json
import os
import shutil
import subprocess
from collections.abc import Iterable, Sequence
from pathlib import Path
from typing import Any

PIECE = 1 << 20
GZIP, COMPRESS = b"\x1f\x8b", b"\x1f\x9d"  # what .gz and .Z begin with
HATANAKA = b"CRINEX VERS   / TYPE"  # columns 61 to 80 of the first line


class StepError(Exception):
    """What ended a step; its text is the end of one line for the user."""


def digest(path: str | Path) -> dict[str, Any]:
    """Size and checksum of a file."""
    sums, size = hashlib.sha256(), 0
    with open(path, "rb") as file:
        while piece := file.read(PIECE):
            sums.update(piece)
            size += len(piece)
    return {"bytes": size, "sha256": sums.hexdigest()}


def settle(path: str, target: str) -> None:
    """Gives a whole file its own name, once it is on the disk."""
    with open(path, "rb+") as file:
        os.fsync(file.fileno())
    os.makedirs(os.path.dirname(target) or ".", exist_ok=True)
    os.replace(path, target)


def write_json(path: str | Path, value: Any) -> None:
    """Writes a value with sorted keys, so that equal values are equal bytes."""
    Path(path).write_text(json.dumps(value, indent=1, sort_keys=True) + "\n", encoding="utf-8")


def read_json(path: str | Path) -> Any:
    """A value from a file."""
    return json.loads(Path(path).read_text(encoding="utf-8"))


def last_line(text: str) -> str:
    """The last line of what a program said, or what to say where it said nothing."""
    lines = [line.strip() for line in text.splitlines() if line.strip()]
    return lines[-1] if lines else "without a word"


def run(words: Sequence[str | Path], what: str | Path, **streams: Any) -> subprocess.CompletedProcess[bytes]:
    """Runs a program to its end. StepError with its own last word where the status isn't 0."""
    try:
        ended = subprocess.run(words, stderr=subprocess.PIPE, **streams)
    except FileNotFoundError:
        raise StepError(f"{what}: there is no {words[0]}") from None
    if ended.returncode != 0:
        status = ended.returncode
        how = f"status {status}" if status > 0 else f"killed by signal {-status}"
        raise StepError(f"{what}: {how}, {last_line(ended.stderr.decode(errors='replace'))}")
    return ended


def unpack_one(source: str, target: str) -> None:
    """Writes a file to `target` as it was before gzip (or compress) and Hatanaka's compression."""
    if not os.path.exists(source):
        raise StepError(f"{source} isn't there")
    with open(source, "rb") as file:
        packed = file.read(2) in (GZIP, COMPRESS)
    if packed:
        with open(target, "wb") as file:
            run(["gzip", "-dc", source], source, stdout=file)
    else:
        shutil.copyfile(source, target)
    with open(target, "rb") as file:
        is_hatanaka = file.readline(PIECE)[60:80] == HATANAKA
    if is_hatanaka:
        undo_hatanaka(source, target)


def undo_hatanaka(source: str, target: str) -> None:
    """Undoes Hatanaka's compression by the program that its authors give away."""
    program = shutil.which("crx2rnx") or shutil.which("CRX2RNX")
    if program is None:
        raise StepError(
            f"{source} has Hatanaka's compression, and crx2rnx isn't on the path:"
            " it is in RNXCMP of the Geospatial Information Authority of Japan"
        )
    packed = f"{target}.crx"
    os.replace(target, packed)
    with open(packed, "rb") as given, open(target, "wb") as file:
        run([program], source, stdin=given, stdout=file)
    os.remove(packed)


def join_navigation(paths: Iterable[str], target: str) -> None:
    """Writes the first file, and behind it the records of the others."""
    with open(target, "wb") as whole:
        for number, path in enumerate(paths):
            is_record = number == 0
            with open(path, "rb") as file:
                for line in file:
                    if is_record:
                        whole.write(line)
                    is_record = is_record or line[60:73] == b"END OF HEADER"


def unpack_all(observations: str, navigation: Iterable[str], room: str) -> tuple[str, str]:
    """The observation and the navigation file as the program reads them, in `room`."""
    obs, nav = f"{room}/obs", f"{room}/nav"
    unpack_one(observations, obs)
    unpacked = []
    for number, source in enumerate(navigation):
        unpacked.append(f"{room}/nav{number}")
        unpack_one(source, unpacked[-1])
    join_navigation(unpacked, nav)
    return obs, nav


def unpacked(path: str | Path, target: str) -> dict[str, Any]:
    """Writes the log of a compressed one to `target`. Its size and checksum."""
    with open(target, "wb") as file:
        run(["zstd", "-q", "-dc", path], path, stdout=file)
    return digest(target)
