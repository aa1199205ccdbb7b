"""What all tests share: the package on the path of the programs that they run, and the program that is tested."""
import os
import subprocess
import tempfile
from collections.abc import Iterator
from pathlib import Path

import pytest

TOP = Path(__file__).resolve().parent


def pytest_addoption(parser: pytest.Parser) -> None:
    """The options that tests of the built program and of the workflow have."""
    parser.addoption("--program", metavar="PATH", help="the built program (that which ./gpscover runs, if it is there)")
    parser.addoption("--slurm", action="store_true", help="run the workflow's tests on a Slurm")


def pytest_configure(config: pytest.Config) -> None:
    """What tests start finds the package as they do, and the program that is named."""
    folders = [str(TOP / "python/src"), os.environ.get("PYTHONPATH", "")]
    os.environ["PYTHONPATH"] = os.pathsep.join(filter(None, folders))
    if config.getoption("--program"):
        os.environ["GPSCOVER"] = os.path.abspath(config.getoption("--program"))


def path_of_wrapper() -> str | None:
    """The program that ./gpscover runs, or None where it would have to be proved and built first."""
    told = subprocess.run([TOP / "gpscover", "--version"], capture_output=True, text=True, check=False).stdout
    if "\nreleased: " not in told and "\nbuilt here: " not in told:
        return None
    return subprocess.run([TOP / "gpscover", "--path"], capture_output=True, text=True, check=True).stdout.strip()


@pytest.fixture(scope="session")
def program(request: pytest.FixtureRequest) -> str:
    """The absolute path of the program that is tested."""
    path = request.config.getoption("--program") or path_of_wrapper()
    if path is None:
        pytest.skip("no program is built of these sources, and --program names none")
    return os.path.abspath(path)


@pytest.fixture
def room() -> Iterator[Path]:
    """A folder that is gone behind the test. Those of `tmp_path` stay, and some files here are large."""
    with tempfile.TemporaryDirectory() as name:
        yield Path(name)
