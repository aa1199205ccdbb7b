#!/usr/bin/env python3
"""Makes docs/HEADLINE.md: from the README's sentence down to the definitions, in ten links, and renewed rows.

usage: python3 -m tools.headline > docs/HEADLINE.md

Each link names definitions, which are copied from their files; those that stand behind one path make one frame. The head
of a module stands over the first definition of it. Exit status: 0; 1 and one line where a file or a name is gone.
"""
import re
import textwrap
from pathlib import Path

from gpscover.command import run_tool
from gpscover.errors import Error

ROOT = Path(__file__).resolve().parents[1]


class Gone(Error):
    """A file or a name that a link needs isn't there."""


HEAD = """# From the headline down to the definitions

{sentence}

Ten links lead from this sentence of the README to the equations, an eleventh says what renewed rows are, and a twelfth what
rows with a station mean. What stands in a frame is copied from the file above it by `tools/headline.py`, which fails where a name is gone. `×`
reads 'and', `⊎` reads 'or', `→` reads 'implies' or 'for all', `≡` reads 'is', `⊥` reads 'never', `Unit {{0}}` reads
'always', `(x : T) ×` reads 'there is an x', and a record is the conjunction of its fields. A line `module _ (..) where`
names what the definitions below it take first; on this page it stands over the first of them alone.
"""
WIDTH = 118

LINKS = (
    (
        "The program's top call",
        "`main` calls `run` with the words of the command line. This clause of its contract speaks of everything that is seen"
        " before and after the call, by the command that the words ask for. `check` is never quiet: of it `ObeysWords` says what"
        " `Obeys` does.",
        (
            ("crates/cover_run/src/top.rt", "runs"),
            ("crates/cover_run/specs/Runs.antt", "Runs"),
            ("crates/cover_run/specs/Runs.antt", "ObeysWords", "Quietly"),
            ("crates/cover_run/specs/Runs.antt", "Obeys"),
        ),
    ),
    (
        "A run of `check`, by its status",
        "A task says which files are read, how, and what is done with what was read. Of a run of it `found` speaks of the"
        " reading, and `ends` of what was done. (The `Fits` of `exact` is of a status, and not that of link 8.)",
        (("crates/cover_run/specs/Runs.antt", "checking"), ("crates/cover_run/specs/Runs.antt", "RunOf", "Ends")),
        "From `ends` to the line that is printed: where every file was read and accepted, a verdict is told, as `Does` of the"
        " task says, with `SaysAccepted` for `Yes` and `SaysRefused` for `No`; else the status is that of a notice, which is"
        " never `Done` (`status_of` of `crates/input_files/specs/Statuses.antt`). So a run that ends with `Done` (status 0) read"
        " files that are accepted, and printed a line that says so.",
        (("crates/cover_run/specs/Runs.antt", "TellsAlone"), ("crates/cover_run/specs/Telling.antt", "Tells")),
        "From `found` to the files: what was read, as plain values, is what they give. `ReadsChecked` (of"
        " `crates/cover_run/specs/Checking.antt`) reads the settings, the navigation file, a station's file where the words name"
        " one, the observation file and the log in this order, each by `Named`, as `ReadsObs` does the observation file."
        " `Files` are there the names that the words give, and in `Found` the bytes under each name.",
        (
            ("crates/input_files/specs/Reading.antt", "Found"),
            ("crates/input_files/specs/Inputs.antt", "ReadsObs"),
            ("crates/input_files/specs/Reading.antt", "Named", "ReadsFile"),
        ),
        "From a file to its bytes: it gives the value that these spell, or a notice. **Of files that can't tell their bytes, as"
        " those on a disk can't, nothing is said of bytes**: that is the case `None` (`told = None` of"
        " `crates/outer_io/src/file_shelf.rt`), in which any value may have been read, and a yes speaks of the value that was."
        " The same code runs over files of both kinds, so it does with the bytes that a disk gives it what is proved of it for"
        " files that tell theirs.",
        (("crates/input_files/specs/Reading.antt", "FileGives", "GivesWithin", "Gives"),),
        "What bytes spell is said by each text's `Spells`. Of the observations of a file it is the position and the epochs that"
        " the words ask for.",
        (
            ("crates/input_files/specs/Inputs.antt", "obs_text"),
            ("crates/rinex_obs/specs/Files.antt", "AreBetween"),
            ("crates/rinex_obs/specs/Files.antt", "between"),
        ),
    ),
    (
        "The yes",
        "The line is `yes` and the number of boxes of an accepted log. Accepted is a fact on what was read: observations,"
        " records, settings, a station's observations where there are some, and log. Of satellites records and settings say what"
        " equations and bounds leave of each, those of Galileo among them where the settings have its codes; `meaning_by` stands"
        " in link 9, and with a station `station_meaning` in link 12.",
        (
            ("crates/cover_run/specs/Checking.antt", "SaysAccepted"),
            ("crates/cover_run/specs/Checking.antt", "Accepts"),
            ("crates/cover_run/specs/Solving.antt", "meaning_of"),
            ("crates/station_rows/specs/Stations.antt", "rows_meaning"),
            ("crates/sat_rows/specs/Sources.antt", "both_meaning"),
            ("crates/paving_log_check/specs/GpsChecked.antt", "IsFileAccepted"),
        ),
    ),
    (
        "An accepted log",
        "It passes every test against rows of the checker's own, and it covers. These rows are given for the whole search"
        " box, and where the log renews its rows for a smaller box, for that one too: to each line of a renewal belongs an"
        " own row of its satellite over that box.",
        (
            ("crates/paving_log_check/specs/Checked.antt", "IsAccepted"),
            ("crates/paving_log_check/specs/Admissible.antt", "Admissible"),
        ),
        "From `are_own` to the rows: `AreOwn` goes along the searches, each with its block, and asks own lines of each, one"
        " for each satellite of the epoch, in order (`AreLinesOf`): why it isn't used, or a row that holds whatever the"
        " equations allow of it over the box (`IsOwnRow` of the same file).",
        (
            ("crates/paving_log_check/specs/OwnLines.antt", "AreOwn", "OwnLines", "IsOwnOf"),
            ("crates/sat_rows/specs/OwnRows.antt", "AreLinesOf"),
        ),
    ),
    (
        "In every paved epoch",
        "Each epoch of the file has its block, and each block that has a body, which one of few satellites lacks, covers what"
        " fits at the epoch's time. Its boxes are those of its steps: a renewal changes none. `pieces` (of"
        " `crates/sat_model/specs/Fold.antt`) folds these from the search box on, and gives each closed box and each slab that"
        " is cut off with its step.",
        (
            ("crates/paving_log_check/specs/FileCover.antt", "FileCover"),
            ("crates/paving_log_check/specs/FileCover.antt", "BlocksFitCover"),
            ("crates/paving_log_check/specs/FileCover.antt", "FitBodyCover", "FitBounded"),
        ),
    ),
    (
        "A cover",
        "Each grid position of the search box and each clock offset that fit are kept, and each inner box's positions fit at"
        " its clock.",
        (
            ("crates/paving_log_check/specs/FileCover.antt", "FitCover"),
            ("crates/paving_log_check/specs/FileCover.antt", "AllFitInside", "FitsInside"),
        ),
    ),
    (
        "Lies in a logged inner or edge box and its clock span, and within every logged bound",
        "The bounds of a block are those of its body, which the log states behind its steps.",
        (
            ("crates/sat_model/specs/Cover.antt", "SomeKeeps"),
            ("crates/sat_model/specs/Cover.antt", "Keeps"),
            ("crates/sat_model/specs/Cover.antt", "KeepsClock"),
            ("crates/paving_log_check/specs/FileCover.antt", "AreFitBounds"),
            ("crates/sat_model/specs/HalfSpaces.antt", "along", "IsInHalfSpace"),
        ),
    ),
    (
        "Fits all but at most q usable satellites",
        "A satellite is consistent with a position and a clock offset where some values that the equations allow leave an"
        " error within its declared bounds.",
        (
            ("crates/sat_rows/specs/Fitting.antt", "FitsEpoch"),
            ("crates/sat_rows/specs/Fitting.antt", "Fits"),
            ("crates/sat_rows/specs/Fitting.antt", "Agrees"),
            ("crates/sat_rows/specs/Fitting.antt", "IsConsistent"),
        ),
    ),
    (
        "What the equations allow",
        "From `allows` to the equations: the meaning of link 3 is that of `meaning_by`, so what is allowed is `IsChainAt`:"
        " values of a usable satellite that the equations (`IsChainOf`) and the bounds (`IsBound`) allow.",
        (
            ("crates/sat_rows/specs/Sources.antt", "meaning_by"),
            ("crates/sat_rows/specs/Chains.antt", "IsChainAt", "AreValues", "IsChainOf"),
        ),
        "One whole number for each printed equation of IS-GPS-200, from the codes to the range. The equations themselves are"
        " in `Pseudorange`, `ClockChain`, `MeanMotion`, `OrbitChain` and `Turn` of `crates/gnss_model/specs`, in what Galileo's"
        " differ in `Systems` there, and which satellites are usable in `crates/usable_sats/specs/Usability.antt`.",
        (("crates/gnss_model/specs/ChainValues.antt", "ChainValue"),),
        "From `lo` and `hi` of link 8 to the declared bounds: they are the ends of the sum of all spans that the settings"
        " declare for the satellite (`bound_for`) and, where delays straight up are declared, of these, mapped by its elevation.",
        (("crates/sat_rows/specs/Chains.antt", "IsBound"), ("crates/error_bounds/specs/Reading.antt", "bound_for")),
    ),
    (
        "Every log that `solve` completes is one that `check` accepts",
        "The second half of the sentence is the contract of a call with an empty body. The settings tell `solve` whether it"
        " renews rows; `check` takes either log.",
        (
            ("crates/cover_run/src/accepting.rt", "accepted"),
            ("crates/cover_run/specs/Accepting.antt", "SolvesThenChecks"),
        ),
        "Its premises: the files are told, LOG is by name none of those that are read, `solve` ended with `Done`, and `check`"
        " found the files as `solve` left them, by the same words and limits. Of files that can't tell their bytes nothing is"
        " said here either.",
        (("crates/cover_run/specs/Accepting.antt", "RunsThen", "RunsQuietlyThen", "AreApart"),),
    ),
    (
        "Renewed rows",
        "A row holds what the equations allow of a satellite at every point of a box, so the smaller the box, the narrower"
        " the row. Where all that is left of an epoch lies in a small box, a log may give the rows anew for that one, and from"
        " there on boxes are tested by them. What stands behind a root is one list of events, steps and renewals; version 1"
        " of the log is the case without renewals, of which every definition here speaks too.",
        (
            ("crates/sat_model/specs/Logs.antt", "LogValue"),
            ("crates/sat_model/specs/Logs.antt", "Body"),
            ("crates/sat_model/specs/Events.antt", "RowsOver"),
            ("crates/sat_model/specs/Events.antt", "Event"),
        ),
        "Each event is tested where it stands: a step by the rows in use, a renewal by the boxes that are live. Its box lies in"
        " the root and holds each of them, and line i of it is of the i-th satellite. `Meets` is what is asked of a line besides:"
        " nothing by `judge`, and by `check` that it holds the own row in its place.",
        (
            ("crates/sat_model/specs/Verdicts.antt", "EventsPass"),
            ("crates/sat_model/specs/Renewals.antt", "RenewalPasses"),
            ("crates/sat_model/specs/Renewals.antt", "HoldsLive"),
        ),
        "What the rows of a log claim by themselves goes satellite by satellite: one is possible at a point by all of its rows"
        " whose box holds that point, and an inner box is sure by the rows in use at its step.",
        (
            ("crates/sat_model/specs/Cover.antt", "Covers"),
            ("crates/sat_model/specs/Cover.antt", "IsPossibleByAll"),
            ("crates/sat_model/specs/Cover.antt", "AreSureFrom"),
        ),
        "`solve` paves block after block. A source gives each, and says which rows may be given anew for the boxes of the one in"
        " hand; a body has the events of a whole run by that maker. What a fault leaves are finished blocks and the first lines"
        " of one in hand, of which it isn't said that its run goes on.",
        (
            ("crates/log_writer/specs/Sources.antt", "Source"),
            ("crates/log_writer/specs/Pavings.antt", "HasRun"),
            ("crates/log_writer/specs/Pavings.antt", "HasBegun"),
            ("crates/log_writer/specs/Texts.antt", "IsBegun"),
        ),
    ),
    (
        "Rows with a station",
        "With the observations of a second receiver at a known place the values that fit are those of the difference: the"
        " receiver's, with its corrected pseudorange less what the station's own values leave of its pseudorange. The declared"
        " bounds are those of the receiver's error less the station's, and the clock offset is the receiver's less the station's.",
        (
            ("crates/station_epochs/specs/Stations.antt", "Station", "IsInTime", "IsStationEpoch"),
            ("crates/station_rows/specs/Stations.antt", "station_meaning", "IsDifferenceAt"),
            ("crates/station_rows/specs/Differences.antt", "CommonView", "AreDifferences", "IsDifferenceOf"),
            ("crates/station_rows/specs/Differences.antt", "IsResidual"),
        ),
        "Two reasons more not to use a satellite are told behind those of the receiver alone.",
        (("crates/station_rows/specs/Stations.antt", "IsJudgedByBoth", "LacksStation", "IsFarOff"),),
        "The station's file is read by the grammar of the receiver's, its times have to rise, and it stands near the ground.",
        (("crates/input_files/specs/Inputs.antt", "ReadsStation", "SpellsStation", "IsStationAt"),),
    ),
)


def lines_of(path):
    """The lines of a file of the repository."""
    try:
        return (ROOT / path).read_text(encoding="utf-8").splitlines()
    except OSError:
        raise Gone(f"{path} is gone") from None


def comment_above(lines, at, mark):
    """Where the comment right above a line begins."""
    while at > 0 and lines[at - 1].lstrip().startswith(mark) and not lines[at - 1].lstrip().startswith(f"{mark} ----"):
        at -= 1
    return at


def indent_of(line):
    """How many blanks a line begins with."""
    return len(line) - len(line.lstrip())


def without_indent(lines):
    """The lines without the blanks that all of them begin with, but for empty ones."""
    indent = min(indent_of(line) for line in lines if line)
    return [line[indent:] for line in lines]


def modules_over(lines, at):
    """The places in the lines of the first lines of the modules that a line stands in, the outermost first."""
    places, indent = [], indent_of(lines[at])
    for k in range(at, -1, -1):
        if lines[k].lstrip().startswith("module ") and indent_of(lines[k]) < indent:
            places, indent = [k, *places], indent_of(lines[k])
    return places


def head_of_module(lines, at):
    """What a module takes, with the comment above it, up to its `where`."""
    end = next(k for k in range(at, len(lines)) if lines[k].endswith("where"))
    return lines[comment_above(lines, at, "--") : end + 1]


def definition(path, name, shown=None):
    """A definition of a file in specs/, with the comment above it, up to the next blank line, below the heads of its modules.

    Heads that are among those shown, by file and place, are left out, and the others are added to these.
    """
    shown = set() if shown is None else shown
    lines = lines_of(path)
    for at, line in enumerate(lines):
        if re.match(rf"\s*(abbrev pub|pub record|pub data|record pub) {re.escape(name)}\b", line):
            end = next((k for k in range(at, len(lines)) if not lines[k].strip()), len(lines))
            new = [place for place in modules_over(lines, at) if (path, place) not in shown]
            shown.update((path, place) for place in new)
            heads = [line for place in new for line in head_of_module(lines, place)]
            return heads + lines[comment_above(lines, at, "--") : end]
    raise Gone(f"{path}: no definition {name}")


def clause(path, name):
    """A clause of a contract in src/, with the comment above it, up to the clause behind it or the body."""
    lines = lines_of(path)
    for at, line in enumerate(lines):
        if re.match(rf"\s*ensures {re.escape(name)} ", line):
            end = next(k for k in range(at + 1, len(lines)) if re.match(r"\s*(ensures|requires|//|\{|$)", lines[k]))
            return lines[comment_above(lines, at, "//") : end]
    raise Gone(f"{path}: no clause {name}")


def frame(path, names, shown):
    """The file's name and what it says of these."""
    taken = []
    for name in names:
        taken += [""] if taken else []
        taken += clause(path, name) if path.endswith(".rt") else definition(path, name, shown)
    return f"`{path}`\n\n```\n" + "\n".join(without_indent(taken)) + "\n```\n"


def sentence():
    """The README's sentence, which is its first quotation."""
    quoted = [line for line in lines_of("README.md") if line.startswith("> ")]
    if not quoted or not quoted[0].startswith("> For all "):
        raise Gone("README.md: no sentence that begins with '> For all'")
    return "\n".join(quoted)


def page():
    """The whole page."""
    parts, shown = [HEAD.format(sentence=sentence())], set()
    for number, (title, *passages) in enumerate(LINKS, 1):
        parts.append(f"## {number}. {title}\n")
        for text, names in zip(passages[::2], passages[1::2]):
            parts += [f"{textwrap.fill(text, WIDTH)}\n"] if text else []
            parts += [frame(path, some, shown) for path, *some in names]
    return "\n".join(parts)


def main():
    print(page(), end="")
    return 0


if __name__ == "__main__":
    run_tool(main)
