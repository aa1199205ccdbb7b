"""Where the repository and the proved program are."""

from __future__ import annotations

import os
import shutil
import subprocess
from pathlib import Path

from gpscover.errors import Error
from gpscover.log import PathLike

HOME_VARIABLE, PROGRAM_VARIABLE = "GPSCOVER_HOME", "GPSCOVER"


def is_home(folder: Path) -> bool:
    """Whether a folder is the top of the repository."""
    return (folder / "gpscover").is_file() and (folder / "second/recheck.py").is_file()


def home() -> Path:
    """The top of the repository: of GPSCOVER_HOME, of this package, or the folder of the caller."""
    named = os.environ.get(HOME_VARIABLE)
    folders = [Path(named)] if named else [*Path(__file__).resolve().parents[3:4], Path.cwd()]
    for folder in folders:
        if is_home(folder):
            return folder
    raise Error(f"the repository of gpscover isn't found: set {HOME_VARIABLE} to its folder")


def own_program() -> Path:
    """The program that ./gpscover of the repository runs: the released one, or one built there."""
    ran = subprocess.run([str(home() / "gpscover"), "--path"], capture_output=True, text=True)
    if ran.returncode:
        raise Error(f"no program: {ran.stderr.strip()}")
    return Path(ran.stdout.strip())


def find_program(program: PathLike | None = None) -> Path:
    """The program: the one that is named, that of GPSCOVER, that of ./gpscover, or of the path."""
    named = program or os.environ.get(PROGRAM_VARIABLE)
    if named:
        return Path(named)
    try:
        return own_program()
    except Error as error:
        found = shutil.which("gpscover")
        if found is None:
            raise Error(f"{error}; {PROGRAM_VARIABLE} may name the program") from None
        return Path(found)
