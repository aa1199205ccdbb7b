"""Judges, checks, guards and paves forged logs; the second checker is asked of all that are judged and checked.

Where `guard` takes a log for right, its lines are those of gpscover.zones.
"""
import functools
import subprocess
import tempfile
from pathlib import Path

import pytest

from gpscover import zones
from gpscover.log import epochs
from tools import forged_logs
from tools.compare.second import recheck
from tools.forged_logs import Files

FILES = Files()
ALL = [(FILES.settings, it) for it in forged_logs.judged_and_paved()] + list(forged_logs.checked(FILES))
# The second checker takes minutes where rows are renewed very often.
SECOND = [it for it in ALL if it[1].command in ("judge", "check") and not it[1].name.startswith("many_renewals")]
WORDS = {
    "judge": ["log"],
    "check": ["obs", "nav", "settings", "log"],
    "pave": ["log", "new.log"],
    "guard": ["obs", "nav", "settings", "zones", "log"],
}


def answer_of(forged):
    """The wanted answer, and the ends between which the checker's own span has to lie, or None."""
    return forged.answer if isinstance(forged.answer, tuple) else (forged.answer, None)


def wanted(answer, yes):
    """The status, standard output and standard error of an answer."""
    return {"y": (0, yes, ""), "n": (1, answer + "\n", "")}.get(answer[0], (3, "", answer + "\n"))


def told(out, forged):
    """What is printed, but for the own span of a row: that only has to lie within the wanted ends."""
    answer, within = answer_of(forged)
    is_own = within and out.startswith(answer) and forged_logs.holds_own(out, within)
    return answer + "\n" if is_own else out


def named(cases):
    """The cases with their names."""
    return [pytest.param(*it, id=f"{it[1].command}, {it[1].name}") for it in cases]


class TestProgram:
    @pytest.fixture(autouse=True)
    def files_of_a_receiver(self, program, room):
        self.program, self.room = program, room
        for name, content in (("nav", FILES.nav), ("obs", FILES.obs), ("zones", forged_logs.ZONES)):
            self.write(name, content)

    def write(self, name, content):
        (self.room / name).write_text(content, newline="\n")

    def found(self):
        """What the boxes and the bounds of the log say of the zones."""
        things = zones.read_zones(self.room / "zones")
        return "".join(line + "\n" for line in zones.lines(*things, zones.kept(epochs(self.room / "log"))))

    @pytest.mark.parametrize("settings, forged", named(ALL))
    def test_a_log_or_rows(self, settings, forged):
        """The program's answer is the wanted one, and no file is made."""
        self.write("settings", settings)
        (self.room / "log").write_bytes(forged.data)
        words = [self.program, forged.command, *WORDS[forged.command]]
        ran = subprocess.run(words, cwd=self.room, stdin=subprocess.DEVNULL, capture_output=True, text=True, timeout=120)
        answer, _ = answer_of(forged)
        yes = self.found() if forged.command == "guard" and answer[0] == "y" else answer + "\n"
        assert (ran.returncode, told(ran.stdout, forged), ran.stderr) == wanted(answer, yes)
        assert not (self.room / "new.log").exists()


@functools.cache
def read(settings):
    """The receiver's files as the second checker reads them."""
    with tempfile.TemporaryDirectory() as room:
        paths = [Path(room) / name for name in WORDS["check"][:3]]
        for path, content in zip(paths, (FILES.obs, FILES.nav, settings)):
            path.write_text(content, newline="\n")
        return recheck.Files(*map(str, paths))


@pytest.mark.parametrize("settings, forged", named(SECOND))
def test_the_second_checker(settings, forged):
    files = None if forged.command == "judge" else read(settings)
    try:
        status, line = 0, f"yes {recheck.Judge(recheck.read_log(forged.data), files).verdict()}"
    except recheck.Ended as end:
        status, line = end.args
    answer, _ = answer_of(forged)
    assert (status, told(line + "\n", forged)) == ({"y": 0, "n": 1}.get(answer[0], 3), answer + "\n")


def test_each_answer_is_wanted_at_least_once():
    assert forged_logs.WANTED <= {forged_logs.kind_of(answer_of(it)[0]) for _, it in ALL}
