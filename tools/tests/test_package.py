"""The package's modules are short and stand on a page, and so does each of its commands."""
import re
from pathlib import Path

import pytest

from gpscover import cli

TOP = Path(__file__).resolve().parents[2]
MODULES = sorted((TOP / "python/src/gpscover").glob("[!_]*.py"))
PAGES = [path.read_text(encoding="utf-8") for path in sorted((TOP / "docs").glob("*.md"))]
MOST_LINES = 500


@pytest.mark.parametrize("path", MODULES, ids=lambda path: path.stem)
def test_a_module_is_short_and_architecture_names_it(path):
    assert len(path.read_text(encoding="utf-8").splitlines()) <= MOST_LINES
    assert f"`{path.name}`" in (TOP / "docs/ARCHITECTURE.md").read_text(encoding="utf-8")


@pytest.mark.parametrize("command", cli.COMMANDS)
def test_a_page_types_each_command(command):
    typed = re.compile(rf"\bgpslog {command}\b")
    assert any(typed.search(page) for page in PAGES)
