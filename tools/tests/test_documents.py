"""Tests of pages that are made, of the must-fail edits outside the gate, and of the words of ./gpscover."""
import os
import re
import shutil
import subprocess
import tempfile
from pathlib import Path
from unittest import mock

import pytest

from tools import crates_page, headline, proved, statement
from tools.tests.program import ended

TOP = Path(__file__).resolve().parents[2]


class TestStatements:
    BASE = (
        "-- Numbers.\n\n-- its double\nabbrev pub Double : Number\nDouble n = n + n\n\n"
        "abbrev pub Half : Number\nHalf n = n\n\nabbrev pub Third : Number\nThird n = n\n"
    )
    SHAPE = (
        "//! Shapes.\n\n/// A round or a long one.\n#[derive(Clone)]\n"
        "pub enum Shape {\n    /// Its radius.\n    Round(u8),\n    Long,\n}\n\n"
        "pub struct Mark(u8);\n\npub struct Marks {\n    all: u8,\n}\n"
    )
    TOP = (
        "-- What is claimed.\nuse Rattle.low.specs.Base.{Double as Twice}\nuse Rattle.low.specs.Base as base\n"
        "use Rattle.low.specs.declared.shape.Shape.TheVariants as shape\n"
        "use Rattle.low.specs.declared.shape.Mark.{Mark as Sign}\n"
        "use Rattle.std.specs.Prelude.{Double as Other}\n\n"
        "abbrev pub Named : Type\nNamed = Twice\n\nabbrev pub Dotted : Type\nDotted = base.Half (shape.Round 1)\n\n"
        "abbrev pub Marked : Type\nMarked = Sign Other\n\nabbrev pub All : Type\nAll = Named Dotted Marked\n"
    )
    TREE = (("low/specs/Base.antt", BASE), ("low/src/shape.rt", SHAPE), ("high/specs/Top.antt", TOP))
    # What is reached from a definition of the last one, counted by hand.
    REACHED = (
        ("Named", "2 definitions, 5", "0 types, 0"),
        ("Dotted", "2 definitions, 4", "1 types, 5"),
        ("Marked", "1 definitions, 2", "1 types, 1"),
        ("All", "6 definitions, 13", "2 types, 6"),
    )

    def test_names_are_followed_through_renamed_imports(self):
        with tempfile.TemporaryDirectory() as room:
            for name, text in self.TREE:
                path = Path(room) / name
                path.parent.mkdir(parents=True)
                path.write_text(text, encoding="utf-8")
            with mock.patch("tools.statement.CRATES", Path(room)):
                for name, definitions, types in self.REACHED:
                    assert (
                        statement.told(f"high.Top.{name}")
                        == f"high.Top.{name}: 2 files, 17 lines by imports; {definitions} lines by name; {types} lines"
                    )
                for name in ("high.Top.Gone", "high.Gone.All", "high.Top"):
                    assert ended(statement, name) == (1, "", f"statement.py: no definition {name}\n")


class TestDocuments:
    def test_the_statement_has_each_definition_and_type_that_a_yes_reaches(self):
        page = (TOP / "docs/STATEMENT.md").read_text(encoding="utf-8")
        assert page == statement.page()
        for start, _, _ in statement.PARTS:
            _, names, types = statement.reached(tuple(start.split(".")))
            for lines in [*names.values(), *types.values()]:
                assert "\n".join(lines) in page

    def test_the_links_from_the_headline_down_are_there(self):
        assert (TOP / "docs/HEADLINE.md").read_text(encoding="utf-8") == headline.page()

    def test_each_definition_down_from_the_headline_names_the_next(self):
        frames = [frame for _, *passages in headline.LINKS for frames in passages[1::2] for frame in frames]
        paths = {name: path for path, *names in frames for name in names}
        for chain in (
            "runs Runs ObeysWords Obeys checking TellsAlone Tells",
            "ObeysWords Quietly",
            "Obeys RunOf Ends",
            "checking SaysAccepted Accepts IsFileAccepted IsAccepted FileCover BlocksFitCover FitBodyCover FitBounded FitCover",
            "FitCover SomeKeeps Keeps KeepsClock",
            "FitBounded AreFitBounds IsInHalfSpace along",
            "FitCover AllFitInside FitsInside",
            "RunOf Found",
            "ReadsObs Named ReadsFile FileGives GivesWithin Gives",
            "ReadsObs obs_text AreBetween between",
            "IsAccepted Admissible OwnLines",
            "IsAccepted AreOwn IsOwnOf AreLinesOf",
            "BlocksFitCover FitsEpoch Fits Agrees IsConsistent",
            "Accepts meaning_of rows_meaning both_meaning meaning_by IsChainAt AreValues IsChainOf ChainValue",
            "rows_meaning station_meaning IsDifferenceAt AreDifferences IsDifferenceOf IsResidual ChainValue",
            "station_meaning IsJudgedByBoth LacksStation",
            "AreValues IsBound",
            "meaning_by bound_for",
            "accepted SolvesThenChecks RunsQuietlyThen RunsThen AreApart",
        ):
            names = chain.split()
            for above, below in zip(names, names[1:]):
                assert below in paths
                assert re.search(rf"\b{below}\b", headline.frame(paths[above], [above], set()))

    def test_what_a_module_takes_stands_over_its_first_definition(self):
        path, shown = "crates/sat_rows/specs/Fitting.antt", set()
        first = headline.frame(path, ["Fits", "Agrees"], shown)
        assert first.count("\nmodule _ (m : Meaning) (root : GridBox) (tag : ℤ) where\n") == 1
        assert first.index("\nmodule _ ") < first.index("\n  abbrev pub Fits ")
        assert "\n  abbrev pub Agrees " in first
        assert "\npub record IsConsistent " in headline.frame(path, ["IsConsistent"], shown)
        assert "module" not in headline.frame(path, ["IsConsistent", "FitsEpoch"], shown)

    def test_the_page_of_the_crates_is_what_its_script_makes(self):
        assert (TOP / "crates/README.md").read_text(encoding="utf-8") == crates_page.page()

    def test_no_crate_stands_on_one_of_a_higher_floor(self):
        assert [] == crates_page.upward()

    def test_a_name_that_is_gone_is_told(self):
        with pytest.raises(headline.Gone, match="no definition NoSuchName"):
            headline.definition("crates/sat_model/specs/Fold.antt", "NoSuchName")


class TestProved:
    """docs/PROVED.md has a heading for each crate, and names each call that others may make and each of its clauses."""

    PAGE = (TOP / "docs/PROVED.md").read_text(encoding="utf-8")

    def test_what_it_names_is_there(self):
        assert [] == list(proved.gone(self.PAGE))

    def test_what_is_there_it_names(self):
        assert [] == list(proved.untold(self.PAGE))

    def test_each_crate_has_a_heading_or_is_told_to_have_tests_alone(self):
        behind = self.PAGE.split("## Only tested")[1]
        crates = re.findall(r"^(\w+):", (TOP / "crates.txt").read_text(encoding="utf-8"), re.MULTILINE)
        unproved = {crate for crate in crates if f"\n### `{crate}`\n" not in self.PAGE}
        assert {"gpscover"} == {crate for crate in unproved if f"`{crate}`" not in behind}

    def test_a_bullet_begins_with_its_calls(self):
        bullet = "`one` of `Thing` (`first`, `second`), `two`, where the words are `three`: so it is of `four`"
        assert proved.calls(bullet) == [("one", "Thing", ["first", "second"]), ("two", None, [])]
        page = f"### `row_sums`\n\n- {bullet}.\n- plain words.\n\n## Only tested\n"
        assert list(proved.gone(page)) == [
            "row_sums: no one of Thing",
            "row_sums: no first of one",
            "row_sums: no second of one",
            "row_sums: no two",
            "row_sums: no call in front of 'plain words.'",
        ]
        assert list(proved.untold(page)) == [
            f"row_sums: {name} isn't named" for name in ("forms_show", "shows_half_space", "uncovered_choice")
        ]


class TestEdits:
    """The must-fail edits that the gate leaves out (more_edits.sh), whose texts it doesn't look for either."""

    @pytest.mark.parametrize(
        "edit", sorted((TOP / "edits").glob("*/*.edit")), ids=lambda it: f"{it.parent.name}/{it.stem}"
    )
    def test_each_changes_texts_that_stand_once_in_their_files(self, edit):
        crate, texts = TOP / "crates" / edit.parent.name, {}
        for line in edit.read_text(encoding="utf-8").splitlines():
            word, text = line[:5].rstrip(": "), line[5:]
            if word == "file":
                path = text.strip()
                texts.setdefault(path, (crate / path).read_text(encoding="utf-8"))
            elif word == "old":
                old = text
            elif word == "new":
                assert texts[path].count(old) == 1, old
                texts[path] = texts[path].replace(old, text)


class TestWrapper:
    """The words that ./gpscover answers itself. Neither builds anything."""

    def said(self, word, path=os.environ.get("PATH", "")):
        ran = subprocess.run([TOP / "gpscover", word], capture_output=True, text=True, env={"PATH": path}, check=True)
        assert ran.stderr == ""
        return ran.stdout

    def bare(self, room):
        """A path with the tools that the words need, and neither man nor rt."""
        for tool in (
            "sh",
            "sed",
            "dirname",
            "readlink",
            "head",
            "tr",
            "sort",
            "xargs",
            "echo",
            "cat",
            "awk",
            "find",
            "sha256sum",
            "id",
            "mkdir",
            "mv",
            "rm",
        ):
            os.symlink(shutil.which(tool), os.path.join(room, tool))
        return room

    def test_help_is_the_page_of_the_manual(self):
        with tempfile.TemporaryDirectory() as room:
            for path in (os.environ["PATH"], self.bare(room)):
                page = self.said("--help", path)
                for words in ("gpscover solve", "EXIT STATUS", "yes BOXES", "after 2, 3 and 4 nothing was created"):
                    assert words.lower() in " ".join(page.split()).lower()
                assert "\\f" not in page

    def test_version_is_that_of_the_project_its_logs_and_the_kit(self):
        with tempfile.TemporaryDirectory() as room:
            for path in (os.environ["PATH"], self.bare(room)):
                project, logs, kit = self.said("--version", path).splitlines()
                assert re.search(r"^gpscover (unreleased|[0-9.]+)", project)
                assert logs == "logs of the versions 1, 2, 3, 4"
                assert re.search(r"^(released: |built here: |not built)", kit)
