"""The database of a run. It is the same bytes for the same days, whatever made it and when.

epochs    a line an epoch, as epoch_table.py has it
files     the files of each part with size, checksum, and what was said of them:
          role observations, navigation, beside (as they were given), obs, nav, station, settings (as the program
          read them), after, log; beside and station only where there is a station beside the receiver, and after only
          where the log goes on from another one: its name is the day and the part of that one, DAY/PART
absent    days that were left out since they have no observation file, or the configuration says so
stations  where each is by the configuration, and where it is known to stand, in mm
limits    the two alert limits in m, where there are any
"""
import csv
import sqlite3

from epoch_table import ROW_HEAD
from files import StepError, read_json

WHOLE = set(
    "part epoch satellites in edge out splits piece began_epoch held available misleading hazardous certified".split()
)
SAID = {"station", "day", "gps_time", "mark", "faces", "suspects"}  # of each epoch, and may be empty
TEXT = SAID | {"began_day"}
FILES = "station day part role name bytes sha256 verdict program commit_id command".split()
ROLES = ("obs", "nav", "station", "settings", "after", "log")


def kind(column):
    """The type of a column of epochs."""
    return "TEXT" if column in TEXT else "INTEGER" if column in WHOLE else "REAL"


def create(base):
    """The empty tables."""
    columns = ", ".join(f'"{column}" {kind(column)}' for column in ROW_HEAD)
    base.execute(f"CREATE TABLE epochs ({columns}, PRIMARY KEY (station, day, epoch)) WITHOUT ROWID")
    base.execute(f"CREATE TABLE files ({', '.join(FILES)})")
    base.execute("CREATE TABLE absent (station TEXT, day TEXT)")
    places = ", ".join(f"{name} INTEGER" for name in ("x_mm", "y_mm", "z_mm", "known_x_mm", "known_y_mm", "known_z_mm"))
    base.execute(f"CREATE TABLE stations (station TEXT PRIMARY KEY, {places})")
    base.execute("CREATE TABLE limits (horizontal_m REAL, vertical_m REAL)")


def epoch_rows(path):
    """The rows of a day's table; what a region lacks is NULL."""
    with open(path, encoding="utf-8", newline="") as file:
        table = csv.reader(file)
        if next(table, None) != ROW_HEAD:
            raise StepError(f"{path} has another head")
        for row in table:
            pairs = zip(ROW_HEAD, row, strict=True)
            yield [value if value != "" or column in SAID else None for column, value in pairs]


def file_rows(value):
    """The rows of the files of a part, by its verdict."""
    head, program = [value[key] for key in ("station", "day", "part")], value["program"]
    for it in value["sources"]:
        yield [*head, it["role"], it["name"], it["bytes"], it["sha256"], *[""] * 4]
    for role in ROLES:
        it = value["files"].get(role)
        if it is None:  # a receiver without a station, or the begin of a chain
            continue
        name = {"log": value["options"], "after": value.get("chain", {}).get("behind")}.get(role, "")
        said = [value["verdict"], program["sha256"], program["commit"], value["command"]] if role == "log" else [""] * 4
        yield [*head, role, name, it["bytes"], it["sha256"], *said]


def refuse_other_log(value, sums):
    """A part that goes on from another one of the run has to have been given its checked log. `sums` has those before
    it."""
    after, station = value["files"].get("after"), value["station"]
    sums[f"{station}/{value['day']}/{value['part']}"] = value["files"]["log"]["sha256"]
    if after is not None:
        behind = value["chain"]["behind"]
        if sums.get(f"{station}/{behind}", after["sha256"]) != after["sha256"]:
            name = f"{station} {value['day']} part {value['part']}"
            raise StepError(f"{name}: it goes on from a log that isn't the one of {behind}")


def make_database(args, path):
    """Writes the database of all days that are listed."""
    listed = read_json(args.file["listed"])
    base = sqlite3.connect(path)
    base.execute("PRAGMA journal_mode = OFF")
    base.execute("PRAGMA synchronous = OFF")
    create(base)
    holes, file_holes = ", ".join("?" * len(ROW_HEAD)), ", ".join("?" * len(FILES))
    sums = {}
    for station, day in listed["days"]:
        base.executemany(f"INSERT INTO epochs VALUES ({holes})", epoch_rows(f"{args.out}/days/{station}/{day}.csv"))
        for part in range(1, listed["parts"] + 1):
            verdict = read_json(f"{args.out}/verdicts/{station}/{day}/{part}.json")
            refuse_other_log(verdict, sums)
            base.executemany(f"INSERT INTO files VALUES ({file_holes})", file_rows(verdict))
    base.executemany("INSERT INTO absent VALUES (?, ?)", listed["absent"])
    base.executemany("INSERT INTO stations VALUES (?, ?, ?, ?, ?, ?, ?)", listed["stations"])
    base.executemany("INSERT INTO limits VALUES (?, ?)", [listed["limits"]] if listed["limits"] else [])
    base.commit()
    base.close()
