#!/usr/bin/env python3
"""Runs the program at its largest sizes and one past them, and tables time, memory, status and line.

usage: python3 -m tools.largest_sizes PROGRAM

Files are made in the folder for temporary files, which needs 2 GB. It takes some five minutes. Each status and line is
compared with the one that docs/LIMITS.md and docs/ERRORS.md give, and the status is 1 where one differs. Prints the
table of the section 'Largest sizes' of docs/MEASURED.md.
"""
import collections
import os
import re
import resource
import subprocess
import sys
import tempfile
from pathlib import Path

TOP = Path(__file__).resolve().parents[1]
DATA, EXAMPLES = TOP / "crates/gpscover/data", TOP / "examples"
SETTINGS, INPUT, LOG = 65_536, 268_435_456, 536_870_912
EPOCHS = RECORDS = SPLITS = 200_000
LINE, SATELLITES = 4_096, 64
# Blocks of repeated texts are written in pieces of so many bytes, so that this script itself stays small.
PIECE = 1 << 20

# A run: what is large, the words, and what is wanted of it.
Case = collections.namedtuple("Case", "what words status line")
Measured = collections.namedtuple("Measured", "status line seconds peak")


class Folder:
    """Files of a folder, which are made in pieces."""

    def __init__(self, path):
        self.path = Path(path)

    def write(self, name, *texts):
        """A file of texts; a text may come with how often it is repeated."""
        with open(self.path / name, "wb") as file:
            for it in texts:
                data, count = it if isinstance(it, tuple) else (it, 1)
                data = data.encode()
                at_once = max(1, PIECE // max(1, len(data)))
                for _ in range(count // at_once):
                    file.write(data * at_once)
                file.write(data * (count % at_once))

    def append(self, name, data):
        with open(self.path / name, "ab") as file:
            file.write(data)

    def size(self, name):
        return (self.path / name).stat().st_size

    def same(self, name, other):
        """Whether a file holds these bytes."""
        return self.size(name) == len(other) and (self.path / name).read_bytes() == other

    def ends_with(self, name, text):
        """Whether a file's last bytes are these."""
        with open(self.path / name, "rb") as file:
            file.seek(-len(text), os.SEEK_END)
            return file.read() == text.encode()

    def remove(self, *names):
        for name in names:
            (self.path / name).unlink()


class Sizes:
    """Runs cases and gathers the rows of the table."""

    def __init__(self, program, folder):
        self.program, self.folder = program, folder
        self.rows, self.wrong = [], 0
        # What a child's peak says at least, since it begins as a copy of this script.
        self.floor = resource.getrusage(resource.RUSAGE_SELF).ru_maxrss

    def measure(self, words):
        """Runs the program on words and gives its status, its line, the processor time in s, and the peak memory."""
        out, err = (self.folder.path / name for name in ("stdout", "stderr"))
        # Reports are long, and no line of them is looked at.
        keeps_out = words[0] in ("judge", "check")
        with open(out if keeps_out else os.devnull, "wb") as to, open(err, "wb") as errors:
            words = [self.program, *words]
            process = subprocess.Popen(words, cwd=self.folder.path, stdin=subprocess.DEVNULL, stdout=to, stderr=errors)
            _, ended, usage = os.wait4(process.pid, 0)
        process.returncode = os.waitstatus_to_exitcode(ended)
        line = (err.read_text() or (out.read_text() if keeps_out else "")).strip()
        floor = max(self.floor, resource.getrusage(resource.RUSAGE_SELF).ru_maxrss)
        peak = f"{usage.ru_maxrss / 1000:.0f} MB" if usage.ru_maxrss > floor else f"at most {floor / 1000:.0f} MB"
        return Measured(process.returncode, line, usage.ru_utime + usage.ru_stime, peak)

    def run(self, case):
        """Runs one case, compares it and notes its figures."""
        it = self.measure(case.words)
        if (it.status, it.line) != (case.status, case.line):
            self.wrong += 1
            ended = f"status {it.status}, {it.line!r}"
            print(f"{case.what}: {ended}; wanted {case.status}, {case.line!r}", file=sys.stderr)
        row = [case.what, f"`{case.words[0]}`", f"{it.seconds:.2f} s", it.peak, str(it.status)]
        row.append(f"`{it.line}`" if it.line else "")
        self.rows.append(row)
        print(" | ".join(row), file=sys.stderr, flush=True)

    def expect(self, what, holds):
        """Something else that is wanted of the run before."""
        if not holds:
            self.wrong += 1
            print(f"{self.rows[-1][0]}: {what}", file=sys.stderr)

    def at_and_past(self, what, words, limited, name, past, line=""):
        """The case at a limit of bytes, and with one byte more in the named file, where `past` is said."""
        self.run(Case(what, words, 0, line))
        self.expect("the file isn't of the size that is meant", self.folder.size(name) == limited)
        self.folder.append(name, b"\n")
        self.run(Case("and one byte more", words, 3, past))


def whole_text(name, folder=DATA):
    return (folder / name).read_text()


def lines_of(text):
    """How many lines a text has."""
    return text.count("\n")


def few_of_size(index, size):
    """An epoch of few of exactly so many bytes, from 30 to 700: as many skip lines as fit, and a time that fills it."""
    line = "few {} {} 0\n"
    skips = (size - len(line.format(index, "1" * 10))) // len("skip G01 1\n")
    lines = "".join(f"skip G{number:02} 1\n" for number in range(1, skips + 1))
    digits = size - len(lines) - len(line.format(index, ""))
    return line.format(index, "1" * digits) + lines


def filling(index, size):
    """Epochs of few, from one of this index on, of exactly so many bytes together; at least 100."""
    while size > 700:
        yield few_of_size(index, 600)
        index, size = index + 1, size - 600
    yield few_of_size(index, size)


def navigation_parts(name="receiver.nav"):
    """The header of a navigation file, and its records of GPS, of eight lines each."""
    *head, body = re.split(r"(?<=END OF HEADER)( *\n)", whole_text(name), maxsplit=1)
    parts = re.split(r"(?m)^(?=G)", body)[1:]
    return "".join(head), ["".join(part.splitlines(keepends=True)[:8]) for part in parts]


def observation_parts():
    """The header of the observation file, and its epochs."""
    head, *epochs = re.split(r"(?m)^(?=> )", whole_text("receiver.obs"))
    return head, epochs


def settings_with(**changes):
    """The settings with other values for some keys."""
    text = whole_text("settings.toml")
    for key, value in changes.items():
        text, count = re.subn(rf"(?m)^{key} = .*$", f"{key} = {value}", text)
        if count != 1:
            raise ValueError(key)
    return text


# ---- the files of solve and check

FILES = ["receiver.obs", "receiver.nav", "settings.toml"]


def settings_sizes(sizes):
    """Settings of 64 KiB."""
    text = whole_text("settings.toml")
    sizes.folder.write("large.toml", text, ("#", SETTINGS - len(text) - 1), "\n")
    words = ["solve", *FILES[:2], "large.toml", "new.log"]
    sizes.at_and_past("settings of 65,536 bytes", words, SETTINGS, "large.toml", f"settings 29 TooLong {SETTINGS}")
    sizes.expect("the log isn't the usual one", sizes.folder.same("new.log", (DATA / "receiver.log").read_bytes()))


def navigation_sizes(sizes):
    """Navigation files of 256 MiB and of 200,000 records of GPS, each as good as the small one."""
    folder, log = sizes.folder, (DATA / "receiver.log").read_bytes()
    head, records = navigation_parts()
    text = head + "".join(records)
    other = "R01" + records[0][3:81] + "".join(records[0].splitlines(keepends=True)[1:4])
    count, rest = divmod(INPUT - len(text), len(other))
    # A line of another system's record is passed over, whatever is in it.
    folder.write("large.nav", text, (other, count - 1), other[:-1], (" ", rest), "\n")
    words = ["solve", FILES[0], "large.nav", FILES[2], "new.log"]
    sizes.at_and_past("NAV of 268,435,456 bytes", words, INPUT, "large.nav", f"nav 29 TooLong {INPUT}")
    sizes.expect("the log isn't the usual one", folder.same("new.log", log))
    repeats, more = divmod(RECORDS, len(records))
    folder.write("large.nav", head, ("".join(records), repeats), *records[:more])
    sizes.run(Case(f"NAV of {RECORDS:,} records of GPS", words, 0, ""))
    sizes.expect("the log isn't the usual one", folder.same("new.log", log))
    folder.append("large.nav", records[0].encode())
    line = lines_of(head) + 8 * RECORDS + 1
    sizes.run(Case("and one record more", words, 3, f"nav 27 TooMany line {line}"))
    first, rest = records[0].split("\n", 1)
    for length, status, said in (LINE, 0, ""), (LINE + 1, 3, f"nav 15 LongLine line {lines_of(head) + 1}"):
        folder.write("large.nav", head, first.ljust(length) + "\n" + rest, *records[1:])
        sizes.run(Case(f"a line of {length:,} bytes in NAV", words, status, said))
        sizes.expect("the log isn't the usual one", folder.same("new.log", log))
    folder.remove("large.nav")


def observation_sizes(sizes):
    """Observation files of 256 MiB and of 200,000 epochs, each epoch the same and with no splits."""
    folder = sizes.folder
    head, epochs = observation_parts()
    first, rest = epochs[0].split("\n", 1)
    folder.write("none.toml", settings_with(bisections=0))
    words = ["solve", "large.obs", FILES[1], "none.toml", "new.log"]
    # The first line of an epoch may have blanks behind what is read of it.
    size, more = divmod(INPUT - len(head), EPOCHS)
    padded, longer = (first.ljust(size + by - len(rest) - 1) + "\n" + rest for by in (0, 1))
    folder.write("large.obs", head, (padded, EPOCHS - more), (longer, more))
    sizes.run(Case(f"OBS of 268,435,456 bytes, {EPOCHS:,} epochs", words, 0, ""))
    sizes.expect("the file isn't of the size that is meant", folder.size("large.obs") == INPUT)
    sizes.run(Case("and its log", ["check", *words[1:]], 0, f"yes {EPOCHS}"))
    sizes.run(Case("its log alone", ["judge", "new.log"], 0, f"yes {EPOCHS}"))
    folder.append("large.obs", b"\n")
    sizes.run(Case("and one byte more", words, 3, f"obs 29 TooLong {INPUT}"))
    folder.write("large.obs", head, (epochs[0], EPOCHS + 1))
    line = lines_of(head) + EPOCHS * lines_of(epochs[0]) + 1
    sizes.run(Case("one epoch more", words, 3, f"obs 27 TooMany line {line}"))
    log = (DATA / "receiver.log").read_bytes()
    words = ["solve", "large.obs", *FILES[1:], "new.log"]
    for length, status, said in (LINE, 0, ""), (LINE + 1, 3, f"obs 15 LongLine line {lines_of(head) + 1}"):
        folder.write("large.obs", head, first.ljust(length) + "\n" + rest, *epochs[1:])
        sizes.run(Case(f"a line of {length:,} bytes in OBS", words, status, said))
        sizes.expect("the log isn't the usual one", folder.same("new.log", log))
    folder.remove("large.obs", "new.log")


def satellite_sizes(sizes):
    """64 satellites in an epoch, all usable: the observations and records of nine under other numbers too."""
    folder = sizes.folder
    nav_head, records = navigation_parts()
    obs_head, epochs = observation_parts()
    first, *lines = epochs[0].splitlines(keepends=True)
    lines = [line for line in lines if line[0] == "G"]
    sats = [lines[number % len(lines)] for number in range(SATELLITES + 1)]
    named = [(f"G{number:02}", line) for number, line in enumerate(sats, 1)]
    folder.write("many.nav", nav_head, *(name + it[3:] for name, line in named for it in records if it[:3] == line[:3]))
    folder.write("many.toml", settings_with(bisections=4096, outliers=8))
    words = ["solve", "many.obs", "many.nav", "many.toml", "new.log"]
    past = f"obs 27 TooMany line {lines_of(obs_head) + SATELLITES + 2}"
    what = "64 usable satellites of GPS in an epoch, 4,096 splits, q = 8"
    for what, count, status, said in (what, SATELLITES, 0, ""), ("and one satellite more", SATELLITES + 1, 3, past):
        text = "".join(name + line[3:] for name, line in named[:count])
        folder.write("many.obs", obs_head, first[:32] + f"{count:3}" + first[35:], text)
        sizes.run(Case(what, words, status, said))
        if status == 0:
            boxes, rows = kept_boxes(folder.path / "new.log")
            sizes.expect("not all satellites are usable", rows == SATELLITES)
            sizes.run(Case("and its log", ["check", *words[1:]], 0, f"yes {boxes}"))


def kept_boxes(path):
    """How many boxes of a log are in or edge, and how many rows it has."""
    boxes = rows = 0
    with open(path, encoding="ascii") as log:
        for line in log:
            boxes += line.startswith(("in ", "edge "))
            rows += line.startswith("sat ")
    return boxes, rows


# ---- rows and logs

def rows_of_many_boxes(epochs, splits):
    """Rows of a box of 200 m."""
    lines = whole_text("one-edge-box.log", EXAMPLES).splitlines()
    sats = "".join(line + "\n" for line in lines if line.startswith("sat "))
    root = "root -100000000 -90000000 -90000000 100000000 90000000 90000000\n"
    blocks = [f"epoch {index} {index}000000000000 4\n{sats}{root}" for index in range(1, epochs + 1)]
    return f"gpscover 1\nrules 0 {splits} 1000\n" + "".join(blocks)


def split_sizes(sizes):
    """200,000 splits in an epoch, and one more."""
    folder = sizes.folder
    folder.write("many.rows", rows_of_many_boxes(1, SPLITS))
    sizes.run(Case(f"{SPLITS:,} splits in an epoch of 4 satellites", ["pave", "many.rows", "new.log"], 0, ""))
    boxes, _ = kept_boxes(folder.path / "new.log")
    sizes.expect("not all splits were made", folder.ends_with("new.log", f"\ndone {SPLITS}\n"))
    sizes.run(Case("and its log", ["judge", "new.log"], 0, f"yes {boxes}"))
    folder.write("many.rows", rows_of_many_boxes(1, SPLITS + 1))
    said = "rows 40 BadLog line 2 kind 1"
    sizes.run(Case("one split more in the rules of rows", ["pave", "many.rows", "new.log"], 3, said))
    head, epochs = observation_parts()
    folder.write("one.obs", head, epochs[0])
    words = ["solve", "one.obs", FILES[1], "many.toml", "new.log"]
    folder.write("many.toml", settings_with(bisections=SPLITS))
    sizes.run(Case(f"{SPLITS:,} splits in an epoch of 9 satellites, q = 1", words, 0, ""))
    boxes, _ = kept_boxes(folder.path / "new.log")
    sizes.run(Case("and its log", ["check", *words[1:]], 0, f"yes {boxes}"))
    folder.write("many.toml", settings_with(bisections=SPLITS + 1))
    said = "settings 33 Outside search.bisections"
    sizes.run(Case("one split more in the settings", words, 3, said))


def rows_sizes(sizes):
    """Rows of 256 MiB."""
    folder = sizes.folder
    lines = whole_text("recorded-epoch.rows", EXAMPLES).splitlines(keepends=True)
    block = "".join(lines[3:])
    count = 0
    with open(folder.path / "large.rows", "w", newline="\n") as file:
        left = INPUT - file.write("gpscover 1\nrules 1 0 1000000\n")
        while left > len(block) + 200:
            count += 1
            left -= file.write(f"epoch {count} 895816769999000000000 9\n" + block)
        file.writelines(filling(count + 1, left))
    what = f"ROWS of 268,435,456 bytes, {count:,} epochs without splits"
    sizes.at_and_past(what, ["pave", "large.rows", "new.log"], INPUT, "large.rows", f"rows 29 TooLong {INPUT}")
    sizes.run(Case("the log of the rows at the limit", ["judge", "new.log"], 0, f"yes {count}"))
    folder.remove("large.rows", "new.log")


def log_sizes(sizes):
    """A log of 512 MiB that is read: epochs with 200,000 splits, some of one box, and some of few at its end."""
    folder = sizes.folder
    root = rows_of_many_boxes(1, SPLITS).splitlines(keepends=True)[3:]
    # Each box is split in the order of the numbers, so that those from 200,000 on are left; of its halves none is
    # shorter than 2 m.
    splits = (f"split {box} {((box + 1).bit_length() - 1) % 3}\n" for box in range(SPLITS))
    edges = (f"edge {box} -200000000000000 200000000000000\n" for box in range(SPLITS, 2 * SPLITS + 1))
    with open(folder.path / "block", "w", newline="\n") as file:
        for lines in root, splits, edges, [f"done {SPLITS}\n"]:
            file.writelines(lines)
    small = "".join([*root, "edge 0 -200000000000000 200000000000000\n", "done 0\n"])
    large_epochs = small_epochs = 0
    with open(folder.path / "large.log", "w", newline="\n") as file:
        left = LOG - file.write(f"gpscover 1\nrules 0 {SPLITS} 1000\n")
        while left > folder.size("block") + 200:
            large_epochs += 1
            left -= file.write(f"epoch {large_epochs} 0 4\n")
            left -= copied(folder.path / "block", file)
        while left > len(small) + 200:
            small_epochs += 1
            left -= file.write(f"epoch {large_epochs + small_epochs} 0 4\n" + small)
        file.writelines(filling(large_epochs + small_epochs + 1, left))
    boxes = large_epochs * (SPLITS + 1) + small_epochs
    what = f"a log of 536,870,912 bytes, {large_epochs} epochs with 200,000 splits and {small_epochs:,} without"
    sizes.at_and_past(what, ["judge", "large.log"], LOG, "large.log", f"log 29 TooLong {LOG}", f"yes {boxes}")
    folder.remove("large.log", "block")


def many_renewals(sizes):
    """A log of one epoch that is filled with renewals, up to 512 MiB."""
    folder = sizes.folder
    lines = whole_text("renewed-rows.log", EXAMPLES).splitlines(keepends=True)
    before, renewal, behind = ("".join(lines[first:last]) for first, last in ((0, 10), (10, 15), (15, None)))
    count = (LOG - len(before) - len(behind)) // len(renewal)
    with open(folder.path / "large.log", "w", newline="\n") as file:
        file.write(before)
        file.writelines(renewal for _ in range(count))
        file.write(behind)
    what = f"a log of {folder.size('large.log'):,} bytes, {count:,} renewals of 4 rows in one epoch"
    sizes.run(Case(what, ["judge", "large.log"], 0, "yes 1"))
    folder.remove("large.log")


def copied(path, file):
    """Copies a file to an open one in pieces, and gives how many bytes these were."""
    count = 0
    with open(path, encoding="ascii", newline="\n") as source:
        while piece := source.read(PIECE):
            count += file.write(piece)
    return count


def full_log(sizes):
    """A log that would pass 512 MiB while it is written."""
    folder = sizes.folder
    folder.write("many.rows", rows_of_many_boxes(80, SPLITS))
    words = ["pave", "many.rows", "new.log"]
    what = "80 epochs of 200,000 splits, whose log would be longer than 536,870,912 bytes"
    sizes.run(Case(what, words, 7, f"log full {LOG}"))
    sizes.expect("the log isn't filled", LOG - 100 < folder.size("new.log") <= LOG)
    folder.remove("new.log")


def main(program):
    with tempfile.TemporaryDirectory() as path:
        folder = Folder(path)
        for name in FILES:
            folder.write(name, whole_text(name))
        sizes = Sizes(os.path.abspath(program), folder)
        for part in (settings_sizes, navigation_sizes, observation_sizes, satellite_sizes, split_sizes, rows_sizes,
                     log_sizes, many_renewals, full_log):
            part(sizes)
    head = ["what", "run", "processor time", "peak memory", "status", "line"]
    for cells in head, ["---"] * len(head), *sizes.rows:
        print("| " + " | ".join(cells) + " |")
    return 1 if sizes.wrong else 0


if __name__ == "__main__":
    if len(sys.argv) != 2:
        sys.exit(__doc__)
    sys.exit(main(sys.argv[1]))
